//! Cuts what this crate compiles out of the Rust source into OUT_DIR. Nothing of the source is kept in the repository.
mod alterations;
mod parts;
mod text;

use std::path::{Path, PathBuf};
use text::Text;

fn main() {
    println!("cargo:rerun-if-env-changed=PYWR_SOURCE");
    println!("cargo:rerun-if-changed=build");
    let reference = Path::new(&std::env::var("CARGO_MANIFEST_DIR").unwrap()).join("..");
    // A relative path is taken from the folder `reference`.
    let source = reference.join(std::env::var("PYWR_SOURCE").unwrap_or("../../shared/docs/src".into()));
    let read = |name: &str| Text::read(&source, name);

    write("edge.rs", read("edge.rs").whole());
    write("solvers.rs", read("solvers/mod.rs").whole());
    write("network.rs", read("network.rs").parts(&parts::NETWORK));
    write("node.rs", read("node.rs").parts(&parts::NODE));
    write("aggregated_node.rs", read("aggregated_node.rs").parts(&parts::AGGREGATED_NODE));
    write("virtual_storage.rs", read("virtual_storage.rs").parts(&parts::VIRTUAL_STORAGE));

    let col_edge_map = read("solvers/col_edge_map.rs");
    write("col_edge_map.rs", col_edge_map.whole());
    write("col_edge_map_altered.rs", col_edge_map.altered(&alterations::COL_EDGE_MAP));

    let builder = read("solvers/builder.rs");
    write("builder_unaltered.rs", builder.whole());
    write("builder.rs", builder.altered(&alterations::BUILDER));
}

fn write(name: &str, text: String) {
    let path = PathBuf::from(std::env::var("OUT_DIR").unwrap()).join(name);
    std::fs::write(&path, text).unwrap_or_else(|e| panic!("{}: {e}", path.display()));
}
