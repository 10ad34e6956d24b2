//! cases [SEED COUNT]: writes the sample of COUNT networks of SEED with the reference's answers behind the hand-made cases of `crates/test_cases`
//! (CASES names another folder), in place of the one that stands there.
//! cases --check [SEED COUNT]: writes nothing, and fails if another sample or another answer stands there.
use pywr_reference::case_list::{self, CaseList};
use pywr_reference::sample::{COUNT, SEED, Sample};
use std::process::exit;

const USAGE: &str = "cases [--check] [SEED COUNT], COUNT not 0";

fn main() {
    let mut words: Vec<String> = std::env::args().skip(1).collect();
    let check = words.first().is_some_and(|word| word == "--check");
    if check {
        words.remove(0);
    }
    let numbers = words.iter().map(|word| word.parse().ok()).collect::<Option<Vec<u64>>>();
    let (seed, count) = match numbers.as_deref() {
        Some([]) => (SEED, COUNT),
        Some([seed, count]) if *count > 0 => (*seed, *count as usize),
        _ => fail(USAGE, 2),
    };
    let sample = Sample::of(seed, count);
    println!("seed {seed}, networks {}; {}", sample.tally.builds.total(), sample.tally.builds.text());
    println!("steps {}; {}", sample.tally.steps.total(), sample.tally.steps.text());
    match run(check, &sample) {
        Ok(done) => println!("{done}"),
        Err(fault) => fail(&fault, 1),
    }
}

fn run(check: bool, sample: &Sample) -> Result<String, String> {
    let folder = case_list::folder();
    let stored = CaseList::read(&folder)?;
    let due = stored.with(sample)?;
    if !check {
        due.write(&folder)?;
        return Ok(format!("{folder}: stdin {} bytes, stdout {} bytes", due.stdin.len(), due.stdout.len()));
    }
    match stored.difference(&due) {
        Some(difference) => Err(format!("{folder} is not what `cases` writes: {difference}")),
        None => Ok(format!("{folder} is what `cases` writes")),
    }
}

fn fail(message: &str, code: i32) -> ! {
    eprintln!("{message}");
    exit(code)
}
