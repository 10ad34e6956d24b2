//! A case as a text file: comment lines, the sentinel, the network and the steps in hexadecimal.
use crate::Sentinel;
use crate::generate::Case;

pub fn write(case: &Case, comment: &str) -> String {
    let mut text: String = comment.lines().map(|line| format!("# {line}\n")).collect();
    text += &format!("kind {}\n", case.kind);
    text += match case.sentinel {
        Sentinel::Infinity => "sentinel infinite\n",
        Sentinel::LargestFinite => "sentinel finite\n",
    };
    text += &format!("network {}\n", hexadecimal(&case.network));
    for step in &case.steps {
        text += &format!("step {}\n", hexadecimal(step));
    }
    text
}

pub fn read(text: &str) -> Result<Case, String> {
    let mut case = Case { kind: "replayed", network: Vec::new(), sentinel: Sentinel::Infinity, steps: Vec::new() };
    for line in text.lines().filter(|line| !line.starts_with('#')) {
        let (word, rest) = line.split_once(' ').ok_or(format!("unexpected line `{line}`"))?;
        match word {
            "kind" => {}
            "sentinel" => case.sentinel = if rest == "finite" { Sentinel::LargestFinite } else { Sentinel::Infinity },
            "network" => case.network = bytes(rest)?,
            "step" => case.steps.push(bytes(rest)?),
            _ => return Err(format!("unexpected line `{line}`")),
        }
    }
    Ok(case)
}

fn hexadecimal(bytes: &[u8]) -> String {
    bytes.iter().map(|b| format!("{b:02x}")).collect()
}

fn bytes(text: &str) -> Result<Vec<u8>, String> {
    let digits = |pair: &[u8]| u8::from_str_radix(std::str::from_utf8(pair).ok()?, 16).ok();
    let pairs = text.as_bytes().chunks(2).map(|pair| if pair.len() == 2 { digits(pair) } else { None });
    pairs.collect::<Option<_>>().ok_or("bytes are two hexadecimal digits each".into())
}
