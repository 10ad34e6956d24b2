//! Stand-in for the timestep: the step file's date and days.
use crate::civil::DateTime;

#[derive(Debug)]
pub struct Timestep {
    pub date: DateTime,
    days: f64,
}

impl Timestep {
    pub fn new(date: DateTime, days: f64) -> Self {
        Self { date, days }
    }

    pub fn days(&self) -> f64 {
        self.days
    }
}
