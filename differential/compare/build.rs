//! Links the proved codec into the program that is named as its package, `compare` or `speed`, and into that alone: the
//! archive's path is in TRACE_ARCHIVE.

use std::env::var;

fn main() {
    println!("cargo:rerun-if-env-changed=TRACE_ARCHIVE");
    if let (Ok(archive), Ok(program)) = (var("TRACE_ARCHIVE"), var("CARGO_PKG_NAME")) {
        println!("cargo:rerun-if-changed={archive}");
        println!("cargo:rustc-link-arg-bin={program}={archive}");
    }
}
