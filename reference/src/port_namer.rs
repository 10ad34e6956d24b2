//! The port through its program `namer`: who made each row of a fresh build with the infinite sentinel, in words.
use crate::port::{Answer, Port};
use crate::{Programme, Reference, Refusal, Sentinel, naming, program_run};
use std::path::PathBuf;

pub struct Namer {
    program: PathBuf,
    /// The network that was built, for the runs that name a row: they read it from a file.
    network: PathBuf,
    /// What was printed for all rows.
    text: String,
    /// How many runs named one row, and how many of these a row that is not there.
    one_row: u64,
    no_row: u64,
}

impl Namer {
    pub fn new(program: PathBuf) -> Self {
        let network = std::env::temp_dir().join(format!("pywr-namer-{}.network", std::process::id()));
        Self { program, network, text: String::new(), one_row: 0, no_row: 0 }
    }

    /// Names one row; `due` is the text.
    fn require_row(&self, row: usize, due: &str) -> Result<(), String> {
        let text = program_run::run(&self.program, &[self.network.as_ref(), row.to_string().as_ref()], b"")?;
        if text == due { Ok(()) } else { Err(format!("row {row}: {due:?} is due, the namer prints {text:?}")) }
    }
}

fn refusal(text: &str) -> Option<Refusal> {
    let (number, place) = text.strip_prefix("N ")?.strip_suffix('\n')?.split_once(' ')?;
    Some(Refusal::new(number.parse().ok()?, place.parse().ok()?))
}

impl Drop for Namer {
    fn drop(&mut self) {
        // There is none if nothing was compared.
        let _ = std::fs::remove_file(&self.network);
    }
}

impl Port for Namer {
    fn sentinel(&self, _wanted: Sentinel) -> Sentinel {
        Sentinel::Infinity
    }

    fn has_steps(&self) -> bool {
        false
    }

    /// A refused build prints its refusal, whatever row is asked for.
    fn build(&mut self, network: &[u8], _sentinel: Sentinel) -> Answer {
        std::fs::write(&self.network, network).map_err(|e| format!("{}: {e}", self.network.display()))?;
        self.text = program_run::run(&self.program, &[], network)?;
        let Some(refused) = refusal(&self.text) else { return Ok(Ok(())) };
        self.require_row(0, &self.text)?;
        Ok(Err(refused))
    }

    fn step(&mut self, _step: &[u8]) -> Answer {
        Err("the namer has no steps".into())
    }

    fn programme(&mut self) -> Result<Programme, String> {
        Err("the namer lists no programme".into())
    }

    /// All rows, then the first, the middle and the last one, and the row at the count and one beyond.
    fn same_programme(&mut self, reference: &Reference) -> Result<(), String> {
        let programme = reference.programme();
        let due = naming::all_rows(programme);
        if self.text != due {
            let line = |text: &str, at| text.lines().nth(at).map_or("no line".into(), |line| format!("`{line}`"));
            let at = self.text.lines().zip(due.lines()).take_while(|(a, b)| a == b).count();
            return Err(format!("line {at}: {} is due, the namer prints {}", line(&due, at), line(&self.text, at)));
        }
        let count = programme.rows.len();
        for row in [0, count / 2, count - 1, count, count + 1] {
            self.require_row(row, &naming::one_row(programme, row))?;
            self.one_row += 1;
            self.no_row += (row >= count) as u64;
        }
        Ok(())
    }

    fn report(&self) -> Option<String> {
        Some(format!("single rows named {}, of these not under the count {}", self.one_row, self.no_row))
    }
}
