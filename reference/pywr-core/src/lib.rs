//! The part of pywr-core that turns a network into a linear programme, compiled from its source (build/main.rs), over stand-ins.
pub mod aggregated_node;
pub mod civil;
pub mod edge;
mod first_appearance;
mod flow_order;
pub mod metric;
pub mod network;
pub mod node;
pub mod solvers;
pub mod state;
pub mod timestep;
pub mod virtual_storage;

/// Stand-in for the source's clock. It reads none: timings are left out, and the source's four readings would be a third of a small step.
pub mod clock {
    use std::time::Duration;

    pub struct Instant;

    impl Instant {
        pub fn now() -> Self {
            Self
        }

        pub fn elapsed(&self) -> Duration {
            Duration::ZERO
        }
    }
}

pub use network::NodeIndex;
