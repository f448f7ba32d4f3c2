//! Finds libexports.a: in the folder that SAXWEYLUR_LIB_DIR names, or else where
//! `bindings/archive` writes it in the repository.

use std::env;
use std::path::{Path, PathBuf};
use std::process::exit;

fn main() {
    println!("cargo:rerun-if-env-changed=SAXWEYLUR_LIB_DIR");
    let folder = env::var_os("SAXWEYLUR_LIB_DIR").map_or_else(default_folder, PathBuf::from);
    let archive = folder.join("libexports.a");
    println!("cargo:rerun-if-changed={}", archive.display());
    if env::var("CARGO_CFG_TARGET_ARCH").as_deref() != Ok("x86_64") {
        stop("the archive is for x86-64: build with --target x86_64-unknown-linux-gnu");
    }
    if !archive.is_file() {
        stop(&format!(
            "{} is not there: write it with `bindings/archive`, or set SAXWEYLUR_LIB_DIR",
            archive.display()
        ));
    }
    println!("cargo:rustc-link-search=native={}", folder.display());
    println!("cargo:rustc-link-lib=static=exports");
}

fn default_folder() -> PathBuf {
    let here = env::var_os("CARGO_MANIFEST_DIR").unwrap_or_default();
    Path::new(&here).join("../../target/staticlib")
}

fn stop(why: &str) -> ! {
    eprintln!("saxweylur: {why}");
    exit(1);
}
