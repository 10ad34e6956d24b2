//! Reads the lister's text: a programme or a refusal.
use crate::makers::Maker;
use crate::programme::{Column, Programme, Row};
use crate::refusal::Refusal;

pub fn read(text: &str) -> Result<Result<Programme, Refusal>, String> {
    let mut lines = text.lines();
    let mut words = lines.next().ok_or("no text")?.split(' ');
    match words.next() {
        Some("N") => {
            let refusal = Refusal { number: number(words.next())?, place: number(words.next())? };
            if lines.next().is_some() || words.next().is_some() { Err("text after a refusal".into()) } else { Ok(Err(refusal)) }
        }
        Some("P") => {
            let programme = read_programme(lines)?;
            // Read back it must be the text that was given, `P` line and all.
            if programme.to_string() == text {
                Ok(Ok(programme))
            } else {
                Err("counts or indices do not fit what follows".into())
            }
        }
        _ => Err(format!("unexpected line `{}`", text.lines().next().unwrap_or_default())),
    }
}

fn read_programme<'a>(lines: impl Iterator<Item = &'a str>) -> Result<Programme, String> {
    let mut programme = Programme { columns: Vec::new(), rows: Vec::new(), makers: Vec::new() };
    for line in lines {
        let words: Vec<&str> = line.split(' ').collect();
        match words[..] {
            ["C", _, kind, lower, upper, cost] => programme.columns.push(Column {
                integer: kind == "i",
                lower: double(lower)?,
                upper: double(upper)?,
                cost: double(cost)?,
            }),
            ["R", _, varying, lower, upper, _, kind, index, shared_by] => {
                let [lower, upper] = [double(lower)?, double(upper)?];
                programme.rows.push(Row { varying: varying == "1", lower, upper, elements: Vec::new() });
                let [kind, index, shared_by] = [number(Some(kind))?, number(Some(index))?, number(Some(shared_by))?];
                programme.makers.push(Maker { kind, index, shared_by });
            }
            ["E", column, value] => {
                let row = programme.rows.last_mut().ok_or("an element before any row")?;
                row.elements.push((number(Some(column))?, double(value)?));
            }
            _ => return Err(format!("unexpected line `{line}`")),
        }
    }
    Ok(programme)
}

fn number<T: std::str::FromStr>(word: Option<&str>) -> Result<T, String> {
    let word = word.ok_or("a number is missing")?;
    word.parse().map_err(|_| format!("`{word}` is no number"))
}

fn double(word: &str) -> Result<f64, String> {
    u64::from_str_radix(word, 16).map(f64::from_bits).map_err(|_| format!("`{word}` is no double"))
}
