//! Links libpywr_c.a from the folder that PYWR_LIB names (a relative path is taken from this folder), by default the repository's target/staticlib.
use std::path::Path;

fn main() {
    let named = std::env::var("PYWR_LIB").unwrap_or("../../target/staticlib".into());
    let folder = Path::new(env!("CARGO_MANIFEST_DIR")).join(named);
    let library = folder.join("libpywr_c.a");
    assert!(library.exists(), "{} is not there: `bash tools/make.sh pywr_c` makes it, PYWR_LIB names its folder", library.display());
    println!("cargo:rerun-if-env-changed=PYWR_LIB");
    println!("cargo:rerun-if-changed={}", library.display());
    println!("cargo:rustc-link-search=native={}", folder.display());
}
