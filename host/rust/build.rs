//! Links the archives that `rt lib` writes in crates/host and crates/host_questions. FIVVARUL_LIB names a folder that has both; without it, each is
//! looked for where `rt lib` leaves it.
use std::{env, path::Path};

fn main() {
    println!("cargo:rerun-if-env-changed=FIVVARUL_LIB");
    for crate_name in ["host", "host_questions"] {
        let folder = env::var("FIVVARUL_LIB").unwrap_or_else(|_| format!("{}/../../crates/{crate_name}/out", env::var("CARGO_MANIFEST_DIR").unwrap()));
        println!("cargo:rustc-link-search=native={folder}");
        let archive = Path::new(&folder).join(format!("lib{crate_name}.a"));
        println!("cargo:rerun-if-changed={}", archive.display());
        if !archive.exists() {
            println!("cargo:warning={} is not there: run `rt lib` in crates/{crate_name}, or set FIVVARUL_LIB to its folder", archive.display());
        }
        println!("cargo:rustc-link-lib=static={crate_name}");
    }
}
