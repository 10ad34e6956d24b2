//! What the program `crates/test_cases` writes for its commands, as far as the reference can tell.
use crate::commands::{Command, FULL_LENGTH};
use crate::{Reference, Refusal};

/// The store that the commands work on. A refused build leaves the one before.
#[derive(Default)]
pub struct Replay {
    built: Option<Reference>,
    /// A word of the store was changed since.
    changed: bool,
}

#[derive(Debug)]
pub enum Written {
    Text(Vec<u8>),
    Answer(Result<(), Refusal>),
}

impl Written {
    pub fn bytes(&self) -> Vec<u8> {
        match self {
            Self::Text(text) => text.clone(),
            Self::Answer(Ok(())) => b"A\n".to_vec(),
            Self::Answer(Err(refusal)) => format!("{refusal}\n").into(),
        }
    }
}

impl Replay {
    /// What a command writes. Nothing where the reference has no answer: a run lent short, a store that was changed or never built.
    pub fn run(&mut self, command: &Command) -> Option<Written> {
        match command {
            Command::Text(line) => Some(Written::Text([line, &b"\n"[..]].concat())),
            Command::Build(sentinel, file) => {
                let answer = Reference::build(file, *sentinel).map(|built| *self = Self { built: Some(built), changed: false });
                Some(Written::Answer(answer))
            }
            Command::Step(FULL_LENGTH, file) => self.known().map(|built| Written::Answer(built.step(file))),
            Command::Step(..) => None,
            Command::Change(..) => {
                self.changed = true;
                None
            }
            Command::Clear => {
                *self = Self::default();
                Some(Written::Text(Vec::new()))
            }
            Command::List => self.known().map(|built| Written::Text(built.programme().to_string().into())),
            Command::Count => self.known().map(|built| Written::Text((built.programme().counts() + "\n").into())),
        }
    }

    pub fn known(&mut self) -> Option<&mut Reference> {
        self.built.as_mut().filter(|_| !self.changed)
    }
}

/// Listings with every zero as the positive one: of two zeros the Rust's `max` and `min` may give either.
pub fn without_signs_of_zeros(text: &str) -> String {
    text.replace(" 8000000000000000", " 0000000000000000")
}
