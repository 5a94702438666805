//! Tells cargo where the static library is: in the folder that NULDOPA_LIBRARY names, or where `.ci/build exports_c`
//! puts it.
use std::env;
use std::path::{Path, PathBuf};

fn main() {
    println!("cargo::rerun-if-env-changed=NULDOPA_LIBRARY");
    let own = env::var("CARGO_MANIFEST_DIR").expect("cargo sets it");
    let folder = match env::var_os("NULDOPA_LIBRARY") {
        Some(folder) => PathBuf::from(folder),
        None => Path::new(&own).join("../target/staticlib"),
    };
    println!("cargo::rerun-if-changed={}", folder.join("libexports.a").display());
    println!("cargo::rustc-link-search=native={}", folder.display());
}
