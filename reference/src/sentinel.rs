//! What an upper bound has that binds nothing.
#[derive(Debug, Clone, Copy, PartialEq, Eq)]
pub enum Sentinel {
    Infinity,
    LargestFinite,
}

impl Sentinel {
    pub fn high(self) -> f64 {
        match self {
            Self::Infinity => f64::INFINITY,
            Self::LargestFinite => f64::MAX,
        }
    }

    /// Whether a bound is at or beyond either sentinel.
    pub fn is_reached_by(self, bound: f64) -> bool {
        bound <= -self.high() || bound >= self.high()
    }
}
