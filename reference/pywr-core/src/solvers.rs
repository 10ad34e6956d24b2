//! solvers/mod.rs of the source, whole, with its features off, and the modules it would declare.
include!(concat!(env!("OUT_DIR"), "/solvers.rs"));

/// col_edge_map.rs as it is.
mod col_edge_map {
    include!(concat!(env!("OUT_DIR"), "/col_edge_map.rs"));
}

/// col_edge_map.rs with the alteration of build/alterations.rs.
mod col_edge_map_altered {
    include!(concat!(env!("OUT_DIR"), "/col_edge_map_altered.rs"));
}

/// builder.rs with the alterations of build/alterations.rs, over the altered column map.
pub mod builder {
    include!(concat!(env!("OUT_DIR"), "/builder.rs"));
}

/// builder.rs as it is.
pub mod builder_unaltered {
    include!(concat!(env!("OUT_DIR"), "/builder_unaltered.rs"));
}
