//! Links the static archive, libkutimuq.a or libcapi.a, from the folder that KUTIMUQ_LIB names.
//!
//! A relative folder counts from this crate's own folder, as does the default one.

use std::env;
use std::path::Path;
use std::process::exit;

const DEFAULT_FOLDER: &str = "../../crates/capi/out";
/// The installed archive, and the one that `rt lib` writes in crates/capi.
const NAMES: [&str; 2] = ["kutimuq", "capi"];

fn main() {
    println!("cargo:rerun-if-env-changed=KUTIMUQ_LIB");
    println!("cargo:rerun-if-changed=build.rs");
    if env::var_os("CARGO_FEATURE_LINK").is_none() {
        return;
    }
    let crate_folder = env::var("CARGO_MANIFEST_DIR").expect("cargo sets CARGO_MANIFEST_DIR");
    let named = env::var("KUTIMUQ_LIB").unwrap_or_else(|_| DEFAULT_FOLDER.to_string());
    let folder = Path::new(&crate_folder).join(named);
    for name in NAMES {
        let archive = folder.join(format!("lib{name}.a"));
        if archive.exists() {
            println!("cargo:rerun-if-changed={}", archive.display());
            println!("cargo:rustc-link-search=native={}", folder.display());
            println!("cargo:rustc-link-lib=static={name}");
            return;
        }
    }
    eprintln!("neither libkutimuq.a nor libcapi.a is in {}", folder.display());
    eprintln!("make it with `rt lib` in crates/capi, or name its folder in KUTIMUQ_LIB");
    exit(1);
}
