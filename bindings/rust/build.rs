//! Links the static library that `rt lib` writes in crates/desk.
use std::{env, path::PathBuf};

fn main() {
    let here = PathBuf::from(env::var_os("CARGO_MANIFEST_DIR").expect("set by cargo"));
    let folder = here.join("../../crates/desk/out");
    println!("cargo:rustc-link-search=native={}", folder.display());
    println!("cargo:rustc-link-lib=static=desk");
    println!(
        "cargo:rerun-if-changed={}",
        folder.join("libdesk.a").display()
    );
}
