//! The sample of a seed's networks in `crates/test_cases`: commands, and the reference's answers to them.
//!
//! Cases are taken in the seed's order until COUNT are taken. A third are accepted networks, and each refusal of a network has an equal share of the
//! rest: a case is left out if the share of its build's answer is full, if a file of its is too long for a command, or if its commands and
//! answers have over `LONGEST_CASE` bytes.
use crate::commands::{self, Command, FULL_LENGTH, LONGEST};
use crate::comparison::Tally;
use crate::generate::{self, Case};
use crate::replay::{Replay, Written};
use crate::{NetworkFile, OF_A_NETWORK, Refusal, step_file};

pub const SEED: u64 = 20261115;
pub const COUNT: usize = 120;

/// What the text of the sample's first command starts with.
pub const MARK: &str = "# reference";

const LONGEST_CASE: usize = 6000;
/// A programme with a longer listing is counted after its build, and not listed.
const LONGEST_LISTING: usize = 4096;

#[derive(Default)]
pub struct Sample {
    pub commands: Vec<Command>,
    pub written: Vec<u8>,
    pub tally: Tally,
    replay: Replay,
}

impl Sample {
    pub fn of(seed: u64, count: usize) -> Self {
        let mut sample = Self::default();
        sample.run(Command::Text(format!("{MARK}: seed {seed}, {count} networks").into()));
        for index in 0.. {
            if sample.tally.builds.total() as usize == count {
                break;
            }
            if let Some(case) = Self::of_case(&generate::case(seed, index), index)
                && OF_A_NETWORK.into_iter().all(|n| sample.tally.builds.of(n) + case.tally.builds.of(n) <= share(count, n))
            {
                sample.add(case);
            }
        }
        sample
    }

    fn add(&mut self, case: Self) {
        self.commands.extend(case.commands);
        self.written.extend(case.written);
        self.tally.builds.add(&case.tally.builds);
        self.tally.steps.add(&case.tally.steps);
    }

    /// The build, the steps, and what the programme is after each: after an accepted one, and after the first that is refused.
    fn of_case(case: &Case, index: u64) -> Option<Self> {
        let mut sample = Self::default();
        let fits = case.steps.iter().chain([&case.network]).all(|file| file.len() <= LONGEST);
        sample.run(Command::Text(format!("# case {index}: {}", case.kind).into()));
        let answer = sample.run(Command::Build(case.sentinel, fits.then(|| case.network.clone())?))?;
        sample.tally.builds.count(answer);
        if answer.is_ok() {
            let listed = sample.replay.known()?.programme().to_string().len() <= LONGEST_LISTING;
            sample.run(if listed { Command::List } else { Command::Count });
            sample.run_steps(case, listed);
        }
        let bytes = commands::write_all(&sample.commands).len() + sample.written.len();
        (bytes <= LONGEST_CASE).then_some(sample)
    }

    fn run_steps(&mut self, case: &Case, listed: bool) {
        let network = NetworkFile::read(&case.network).expect("an accepted network");
        let (mut settled, mut refused) = (true, false);
        for step in &case.steps {
            let answer = self.run(Command::Step(FULL_LENGTH, step.clone())).expect("a step is answered");
            self.tally.steps.count(answer);
            if answer.is_ok() {
                settled = signs_are_settled(&network, step);
            }
            if listed && settled && (answer.is_ok() || !refused) {
                self.run(Command::List);
            }
            refused |= answer.is_err();
        }
    }

    /// The answer, if the command is one that has an answer.
    fn run(&mut self, command: Command) -> Option<Result<(), Refusal>> {
        let written = self.replay.run(&command).expect("the reference has an answer");
        self.written.extend(written.bytes());
        self.commands.push(command);
        match written {
            Written::Answer(answer) => Some(answer),
            Written::Text(_) => None,
        }
    }
}

/// How many networks may have an answer, 0 for accepted.
fn share(count: usize, number: usize) -> u64 {
    (if number == 0 { count / 3 } else { (2 * count).div_ceil(3 * (OF_A_NETWORK.len() - 1)) }) as u64
}

/// Whether the port's zeros have the signs of the Rust's. They differ where a virtual storage has −0.0: in the maximum of −0.0 and 0.0 either is
/// right. Such a step is not listed, since the program's text is held to the stored one byte by byte.
fn signs_are_settled(network: &NetworkFile, step: &[u8]) -> bool {
    let (_, state) = step_file::read(network, step).expect("an accepted step");
    let negative_zero = |x: f64| x == 0.0 && x.is_sign_negative();
    !state.virtual_storages.iter().any(|v| [v.min, v.max, v.volume].into_iter().any(negative_zero))
}
