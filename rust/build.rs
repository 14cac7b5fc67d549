// Links the static library that `rt lib` writes in crates/seeds, or the one in the folder that SEEDS_LIBRARY names.

use std::env;
use std::path::{Path, PathBuf};

/// The folder of the library.
fn folder() -> PathBuf {
    let here = env::var("CARGO_MANIFEST_DIR").expect("cargo sets the folder of this package");
    let made = Path::new(&here).with_file_name("crates").join("seeds/out");
    env::var("SEEDS_LIBRARY").map_or(made, PathBuf::from)
}

fn main() {
    let folder = folder();
    let library = folder.join("libseeds.a");
    println!("cargo::rerun-if-env-changed=SEEDS_LIBRARY");
    println!("cargo::rerun-if-changed={}", library.display());
    if !library.is_file() {
        let missing = library.display();
        println!("cargo::error={missing} is missing: run rt lib in crates/seeds");
        return;
    }
    println!("cargo::rustc-link-search=native={}", folder.display());
    println!("cargo::rustc-link-lib=static=seeds");
}
