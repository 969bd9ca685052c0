//! Links the static libraries of this repository that exist, and says which through `cfg`.
//!
//! They are looked for where `tools/staticlib` leaves them, or in the directory that the variable
//! `PEVZONCS_STATICLIB` names. Each defines its exported calls alone: the layers below stand in each
//! once more, under names that the linker does not see.

use std::env;
use std::path::PathBuf;

const LIBRARIES: [&str; 8] = [
    "lexer", "reader", "writer", "reading", "writing", "hours", "longest", "runner",
];

fn main() {
    println!("cargo::rerun-if-env-changed=PEVZONCS_STATICLIB");
    let directory = env::var_os("PEVZONCS_STATICLIB").map_or_else(
        || PathBuf::from(env!("CARGO_MANIFEST_DIR")).join("../target/staticlib"),
        PathBuf::from,
    );
    println!("cargo::rerun-if-changed={}", directory.display());
    println!("cargo::rustc-link-search=native={}", directory.display());
    for library in LIBRARIES {
        println!("cargo::rustc-check-cfg=cfg(have_{library})");
        if directory.join(format!("lib{library}.a")).is_file() {
            println!("cargo::rustc-cfg=have_{library}");
            println!("cargo::rustc-link-lib=static={library}");
        }
    }
}
