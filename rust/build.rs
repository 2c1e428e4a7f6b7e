//! Says where libdonglora.a is: in the folder that DONGLORA_LIB_DIR names, else where tools/archive
//! puts it.

use std::env;
use std::path::PathBuf;

fn main() {
    let folder = match env::var_os("DONGLORA_LIB_DIR") {
        Some(folder) => PathBuf::from(folder),
        None => PathBuf::from(env::var_os("CARGO_MANIFEST_DIR").unwrap_or_default())
            .join("../target/staticlib"),
    };
    println!("cargo:rerun-if-env-changed=DONGLORA_LIB_DIR");
    println!("cargo:rustc-link-search=native={}", folder.display());
    println!("cargo:rustc-link-lib=static=donglora");
}
