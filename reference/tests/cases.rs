//! The answers that stand in `crates/test_cases` are the reference's, wherever it has one; its sample has every answer.
use pywr_reference::case_list::{self, CaseList};
use pywr_reference::commands::{self, Command, FULL_LENGTH};
use pywr_reference::replay::{Replay, without_signs_of_zeros};
use pywr_reference::sample::{COUNT, SEED, Sample};
use pywr_reference::{OF_A_NETWORK, Reference};

/// How many commands of each kind there are, and of how many the reference has the answer.
#[derive(Debug, Default)]
struct Checked {
    builds: [usize; 2],
    steps: [usize; 2],
    listings: [usize; 2],
}

/// Takes `count` lines off the front of the text.
fn take_lines<'a>(text: &mut &'a str, count: usize) -> &'a str {
    let length = text.split_inclusive('\n').take(count).map(str::len).sum();
    let (part, rest) = text.split_at(length);
    *text = rest;
    part
}

fn is_answer(line: &str) -> bool {
    let numbers = line.strip_prefix("N ").map(|rest| rest.split(' ').map(str::parse::<u64>).collect::<Vec<_>>());
    line == "A" || numbers.is_some_and(|numbers| numbers.len() == 2 && numbers.iter().all(Result::is_ok))
}

/// What a command writes that the reference cannot answer: its form, and what document 01 says of a run that is too short.
fn check_form(command: &Command, text: &mut &str) {
    match command {
        Command::Step(FULL_LENGTH, _) => assert!(is_answer(take_lines(text, 1).trim_end())),
        Command::Step(..) => assert_eq!(take_lines(text, 2), "N 16 0\nwork 704\n"),
        Command::Change(letter, at, word) => {
            let run = [(b'H', "shape"), (b'C', "column"), (b'R', "start")].iter().find(|run| run.0 == *letter).unwrap().1;
            let words: Vec<&str> = take_lines(text, 1).trim_end().split(' ').collect();
            assert!(words.len() == 4 && words[2].parse::<u32>().is_ok(), "{words:?}");
            assert_eq!((words[0], words[1], words[3]), (run, &at.to_string()[..], &word.to_string()[..]));
        }
        Command::Count | Command::List => {
            assert!(take_lines(text, 1).starts_with("P "));
            while text.starts_with(['C', 'R', 'E']) {
                take_lines(text, 1);
            }
        }
        Command::Text(_) | Command::Build(..) | Command::Clear => panic!("the reference has an answer"),
    }
}

/// Replays a list and holds what stands in it to the reference's answers.
fn check(list: &CaseList) -> Checked {
    let stdout = without_signs_of_zeros(&list.stdout);
    let (mut text, mut replay, mut checked) = (&stdout[..], Replay::default(), Checked::default());
    for (k, command) in commands::read_all(&list.stdin).unwrap().iter().enumerate() {
        let written = replay.run(command);
        let counts = match command {
            Command::Build(..) => Some(&mut checked.builds),
            Command::Step(..) => Some(&mut checked.steps),
            Command::List | Command::Count => Some(&mut checked.listings),
            _ => None,
        };
        if let Some(counts) = counts {
            counts[0] += 1;
            counts[1] += written.is_some() as usize;
        }
        match written {
            Some(written) => {
                let due = without_signs_of_zeros(&String::from_utf8(written.bytes()).unwrap());
                assert_eq!(take_lines(&mut text, due.lines().count()), due, "command {k}");
            }
            None => check_form(command, &mut text),
        }
    }
    assert_eq!(text, "");
    checked
}

#[test]
fn hand_made_cases() {
    let list = CaseList::read(&case_list::folder()).unwrap().hand_made().unwrap();
    let checked = check(&list);
    assert!(checked.builds[0] == checked.builds[1] && checked.builds[1] > 50, "{checked:?}");
    assert!(3 * checked.steps[1] > 2 * checked.steps[0] && checked.steps[1] > 200, "{checked:?}");
    assert!(3 * checked.listings[1] > 2 * checked.listings[0] && checked.listings[1] > 60, "{checked:?}");
}

#[test]
fn the_sample() {
    let stored = CaseList::read(&case_list::folder()).unwrap();
    let sample = Sample::of(SEED, COUNT);
    assert_eq!(stored.difference(&stored.with(&sample).unwrap()), None);
    let checked =
        check(&CaseList { stdin: commands::write_all(&sample.commands), stdout: String::from_utf8(sample.written).unwrap() });
    assert!(
        [checked.builds, checked.steps, checked.listings].iter().all(|[all, known]| all == known && *all > 100),
        "{checked:?}"
    );
    let [builds, steps] = [sample.tally.builds, sample.tally.steps];
    assert!(OF_A_NETWORK.iter().all(|&n| builds.of(n) >= 2), "{}", builds.text());
    assert!([0, 12, 13, 14, 21].iter().all(|&n| steps.of(n) >= 2), "{}", steps.text());
    let unites = |command: &&Command| match command {
        Command::Build(sentinel, file) => {
            Reference::build_of_any_size(file, *sentinel).is_ok_and(|built| built.unions().count > 0)
        }
        _ => false,
    };
    assert_eq!(sample.commands.iter().filter(unites).count(), 8);
}

#[test]
fn differences_are_found() {
    let stored = CaseList::read(&case_list::folder()).unwrap();
    let mut other = stored.clone();
    other.stdout = other.stdout.replacen("\nN 3 ", "\nN 4 ", 1);
    assert!(stored.difference(&other).is_some_and(|d| d.starts_with("stdout: line ")));
    assert!(std::panic::catch_unwind(|| check(&other)).is_err());
    let mut other = stored.clone();
    *other.stdin.last_mut().unwrap() ^= 1;
    assert!(stored.difference(&other).is_some_and(|d| d.starts_with("stdin: byte ")));
    let mut cut = stored.clone();
    cut.stdout.truncate(cut.stdout.len() - 5);
    assert!(cut.difference(&stored).is_some());
    assert_eq!(stored.hand_made().unwrap().hand_made(), stored.hand_made());
}
