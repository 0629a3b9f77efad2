//! Says where libjournal.a is: in the folder that JOURNAL_FOLDER names, or where `tools/archive`
//! writes it.

use std::env;
use std::path::Path;

fn main() {
    let package = env::var("CARGO_MANIFEST_DIR").expect("cargo says where the package is");
    let written = Path::new(&package).join("../../target/staticlib");
    let folder = env::var_os("JOURNAL_FOLDER").map_or(written, Into::into);
    println!("cargo:rustc-link-search=native={}", folder.display());
    println!("cargo:rerun-if-changed={}", folder.join("libjournal.a").display());
    println!("cargo:rerun-if-env-changed=JOURNAL_FOLDER");
}
