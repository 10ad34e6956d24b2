//! The port through its program `lister`: fresh builds with the infinite sentinel.
use crate::port::{Answer, Port};
use crate::{Programme, Sentinel, listing, program_run};
use std::path::PathBuf;

pub struct Lister {
    program: PathBuf,
    programme: Option<Programme>,
}

impl Lister {
    pub fn new(program: PathBuf) -> Self {
        Self { program, programme: None }
    }
}

impl Port for Lister {
    fn sentinel(&self, _wanted: Sentinel) -> Sentinel {
        Sentinel::Infinity
    }

    fn has_steps(&self) -> bool {
        false
    }

    fn build(&mut self, network: &[u8], _sentinel: Sentinel) -> Answer {
        let text = program_run::run(&self.program, &[], network)?;
        Ok(listing::read(&text)?.map(|programme| self.programme = Some(programme)))
    }

    fn step(&mut self, _step: &[u8]) -> Answer {
        Err("the lister has no steps".into())
    }

    fn programme(&mut self) -> Result<Programme, String> {
        self.programme.clone().ok_or("nothing built".into())
    }
}
