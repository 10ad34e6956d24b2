//! edge.rs of the source, whole.
include!(concat!(env!("OUT_DIR"), "/edge.rs"));
