//! The two files of the program `crates/test_cases`: hand-made cases, and from the mark on the sample.
use crate::commands::{self, Command, MOST};
use crate::replay::without_signs_of_zeros;
use crate::sample::{MARK, Sample};

#[derive(Debug, Clone, PartialEq)]
pub struct CaseList {
    pub stdin: Vec<u8>,
    pub stdout: String,
}

/// The folder that CASES names, by default the program's.
pub fn folder() -> String {
    std::env::var("CASES").unwrap_or(concat!(env!("CARGO_MANIFEST_DIR"), "/../crates/test_cases").into())
}

impl CaseList {
    pub fn read(folder: &str) -> Result<Self, String> {
        let file = |name: &str| std::fs::read(format!("{folder}/{name}")).map_err(|e| format!("{folder}/{name}: {e}"));
        let stdout = String::from_utf8(file("stdout")?).map_err(|e| format!("{folder}/stdout: {e}"))?;
        Ok(Self { stdin: file("stdin")?, stdout })
    }

    pub fn write(&self, folder: &str) -> Result<(), String> {
        let write = |name: &str, bytes: &[u8]| {
            std::fs::write(format!("{folder}/{name}"), bytes).map_err(|e| format!("{folder}/{name}: {e}"))
        };
        write("stdin", &self.stdin)?;
        write("stdout", self.stdout.as_bytes())
    }

    /// The same hand-made cases with another sample behind them.
    pub fn with(&self, sample: &Sample) -> Result<Self, String> {
        let mut list = self.hand_made()?;
        list.stdin.extend(commands::write_all(&sample.commands));
        list.stdout += std::str::from_utf8(&sample.written).map_err(|e| e.to_string())?;
        let count = commands::read_all(&list.stdin)?.len();
        if count <= MOST { Ok(list) } else { Err(format!("{count} commands, the program reads {MOST}")) }
    }

    /// What stands before the mark.
    pub fn hand_made(&self) -> Result<Self, String> {
        let mut rest = &self.stdin[..];
        let mut length = 0;
        while !rest.is_empty() {
            if let Command::Text(text) = Command::read(&mut rest)?
                && text.starts_with(MARK.as_bytes())
            {
                break;
            }
            length = self.stdin.len() - rest.len();
        }
        let lines = self.stdout.split_inclusive('\n').take_while(|line| !line.starts_with(MARK));
        Ok(Self { stdin: self.stdin[..length].to_vec(), stdout: lines.collect() })
    }

    /// The first place where the two differ; the signs of zeros may.
    pub fn difference(&self, due: &Self) -> Option<String> {
        if self.stdin != due.stdin {
            let at = self.stdin.iter().zip(&due.stdin).take_while(|(a, b)| a == b).count();
            return Some(format!("stdin: byte {at} of {}, {} are due", self.stdin.len(), due.stdin.len()));
        }
        let [stored, due] = [self, due].map(|list| without_signs_of_zeros(&list.stdout));
        if stored == due {
            return None;
        }
        let at = stored.lines().zip(due.lines()).take_while(|(a, b)| a == b).count();
        let line = |text: &str| text.lines().nth(at).map_or("no line".into(), |line| format!("`{line}`"));
        Some(format!("stdout: line {} is {}, due is {}", at + 1, line(&stored), line(&due)))
    }
}
