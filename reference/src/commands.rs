//! The commands that the program `crates/test_cases` replays: a letter and two numbers of two bytes, low byte first; bytes behind them for T, B and S.
use crate::Sentinel;

/// A step whose runs all have their full length; under it, the run of that number is lent one short.
pub const FULL_LENGTH: u16 = 10;
/// How many commands the program reads.
pub const MOST: usize = 65_536;
/// How long the bytes behind a command may be.
pub const LONGEST: usize = 65_535;

#[derive(Debug, Clone, PartialEq)]
pub enum Command {
    /// T: a line of text.
    Text(Vec<u8>),
    /// B
    Build(Sentinel, Vec<u8>),
    /// S: the run that is lent short, and the step file.
    Step(u16, Vec<u8>),
    /// H, C or R: a word of the store is changed.
    Change(u8, u16, u16),
    /// L
    List,
    /// P
    Count,
    /// Z: the whole store is set to zero.
    Clear,
}

impl Command {
    pub fn write(&self, to: &mut Vec<u8>) {
        let (letter, first, second, file) = match self {
            Self::Text(text) => (b'T', 0, text.len(), &text[..]),
            Self::Build(sentinel, file) => (b'B', (*sentinel == Sentinel::LargestFinite) as u16, file.len(), &file[..]),
            Self::Step(short, file) => (b'S', *short, file.len(), &file[..]),
            Self::Change(letter, at, word) => (*letter, *at, *word as usize, &[][..]),
            Self::List => (b'L', 0, 0, &[][..]),
            Self::Count => (b'P', 0, 0, &[][..]),
            Self::Clear => (b'Z', 0, 0, &[][..]),
        };
        to.push(letter);
        to.extend(first.to_le_bytes());
        to.extend(u16::try_from(second).expect("no longer than LONGEST").to_le_bytes());
        to.extend(file);
    }

    /// The first command of `from`, which then starts behind it.
    pub fn read(from: &mut &[u8]) -> Result<Self, String> {
        let (head, behind) = from.split_first_chunk::<5>().ok_or("a command is cut off")?;
        let (first, second) = (number(head, 1), number(head, 3));
        let has_file = b"TBS".contains(&head[0]);
        let length = if has_file { second as usize } else { 0 };
        let (file, next) = behind.split_at_checked(length).ok_or("the bytes of a command are cut off")?;
        *from = next;
        match head[0] {
            b'T' => Ok(Self::Text(file.to_vec())),
            b'B' if first == 0 => Ok(Self::Build(Sentinel::Infinity, file.to_vec())),
            b'B' if first == 1 => Ok(Self::Build(Sentinel::LargestFinite, file.to_vec())),
            b'S' if first <= FULL_LENGTH => Ok(Self::Step(first, file.to_vec())),
            b'L' => Ok(Self::List),
            b'P' => Ok(Self::Count),
            b'Z' => Ok(Self::Clear),
            letter @ (b'H' | b'C' | b'R') => Ok(Self::Change(letter, first, second)),
            letter => Err(format!("unexpected command `{}` {first} {second}", letter as char)),
        }
    }
}

fn number(head: &[u8; 5], at: usize) -> u16 {
    u16::from_le_bytes([head[at], head[at + 1]])
}

pub fn write_all(commands: &[Command]) -> Vec<u8> {
    let mut bytes = Vec::new();
    commands.iter().for_each(|command| command.write(&mut bytes));
    bytes
}

pub fn read_all(mut bytes: &[u8]) -> Result<Vec<Command>, String> {
    let mut commands = Vec::new();
    while !bytes.is_empty() {
        let command = Command::read(&mut bytes).map_err(|e| format!("command {}: {e}", commands.len()))?;
        commands.push(command);
    }
    Ok(commands)
}
