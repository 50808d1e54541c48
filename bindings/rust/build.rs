//! Finds the static C library: in the folder KMIP_TTLV_FOLDER, which its build made, or else where pkg-config says.

use std::env;
use std::process::{exit, Command};

/// The folders that pkg-config names for the linker.
fn folders() -> Option<Vec<String>> {
    let said = Command::new("pkg-config").args(["--libs-only-L", "kmip_ttlv"]).output().ok()?;
    let words = String::from_utf8(said.stdout).ok()?;
    said.status.success().then(|| words.split_whitespace().filter_map(|it| it.strip_prefix("-L")).map(str::to_string).collect())
}

fn main() {
    for name in ["KMIP_TTLV_FOLDER", "PKG_CONFIG_PATH"] {
        println!("cargo:rerun-if-env-changed={name}");
    }
    let Some(found) = env::var("KMIP_TTLV_FOLDER").map(|it| vec![it]).ok().or_else(folders) else {
        eprintln!("kmip_ttlv: set KMIP_TTLV_FOLDER to the folder of libkmip_ttlv.a, or PKG_CONFIG_PATH to that of kmip_ttlv.pc");
        exit(1);
    };
    for folder in found {
        println!("cargo:rustc-link-search=native={folder}");
        println!("cargo:rerun-if-changed={folder}/libkmip_ttlv.a");
    }
    println!("cargo:rustc-link-lib=static=kmip_ttlv");
}
