//! Links the proved library for the target's machine: what `host/c/build` makes, and for AArch64 what
//! `host/arm/build` does. LFA_LIBRARY names another folder that has it.

use std::env;
use std::path::PathBuf;

fn main() {
    let own = PathBuf::from(env::var_os("CARGO_MANIFEST_DIR").expect("cargo sets it"));
    let machine = env::var("CARGO_CFG_TARGET_ARCH").expect("cargo sets it");
    let folder = match env::var_os("LFA_LIBRARY") {
        Some(named) => PathBuf::from(named),
        None if machine == "aarch64" => own.join("../../target/arm"),
        None => own.join("../../target/staticlib"),
    };
    println!("cargo:rustc-link-search=native={}", folder.display());
    println!("cargo:rustc-link-lib=static=monitor");
    println!(
        "cargo:rerun-if-changed={}",
        folder.join("libmonitor.a").display()
    );
    println!("cargo:rerun-if-env-changed=LFA_LIBRARY");
}
