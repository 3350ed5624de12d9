//! Links liblrkit.a of the folder that LRKIT_FOLDER names.

use std::env;

fn main() {
    println!("cargo:rerun-if-env-changed=LRKIT_FOLDER");
    if let Ok(folder) = env::var("LRKIT_FOLDER") {
        println!("cargo:rerun-if-changed={}/liblrkit.a", folder);
        println!("cargo:rustc-link-search=native={}", folder);
    }
    println!("cargo:rustc-link-lib=static=lrkit");
}
