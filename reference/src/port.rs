//! What is compared with the reference. Each way of calling the port stands behind this trait.
use crate::{Programme, Reference, Refusal, Sentinel};

/// The outer error is a fault of its own: the port did not run, or wrote what it must not write.
pub type Answer = Result<Result<(), Refusal>, String>;

pub trait Port {
    /// The sentinel that `build` gets where `wanted` is asked for: a program may know one alone.
    fn sentinel(&self, wanted: Sentinel) -> Sentinel;
    /// Whether `step` can be called.
    fn has_steps(&self) -> bool;
    fn build(&mut self, network: &[u8], sentinel: Sentinel) -> Answer;
    fn step(&mut self, step: &[u8]) -> Answer;
    /// The programme now held. A port with a store reads each row's columns by its own call.
    fn programme(&mut self) -> Result<Programme, String>;
    /// Whether it holds the reference's programme; the error says what differs.
    fn same_programme(&mut self, reference: &Reference) -> Result<(), String> {
        match reference.programme().difference(&self.programme()?) {
            Some(difference) => Err(format!("the Rust's and the port's programme differ: {difference}")),
            None => Ok(()),
        }
    }
    /// The column of each edge after a build, if the port tells.
    fn columns_of_edges(&self) -> Option<Vec<usize>> {
        None
    }
    /// The edges in flow order after a build, if the port tells.
    fn flow_order(&self) -> Option<Vec<usize>> {
        None
    }
    /// What it has tried besides the cases that it was given.
    fn report(&self) -> Option<String> {
        None
    }
    /// What of it a long run must have tried and this one has not.
    fn untried(&self) -> Option<String> {
        None
    }
}
