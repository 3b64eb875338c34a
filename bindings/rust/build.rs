//! Finds the library: in the folder that AWARI_LIB_DIR names, where pkg-config says that it is installed,
//! or beside this crate. If it is nowhere there, `bindings/make` unpacks it, which wants no network.

use std::env;
use std::path::{Path, PathBuf};
use std::process::Command;

const LIBRARY: &str = "libawari.a";

fn main() {
    println!("cargo:rerun-if-env-changed=AWARI_LIB_DIR");
    println!("cargo:rerun-if-env-changed=PKG_CONFIG_PATH");
    let bindings = Path::new(env!("CARGO_MANIFEST_DIR")).join("..");
    let folder = named().or_else(installed).unwrap_or_else(|| {
        if bindings.join(LIBRARY).exists() {
            return bindings.clone();
        }
        let made = PathBuf::from(env::var("OUT_DIR").expect("cargo names a folder for what is made"));
        let status = Command::new(bindings.join("make")).arg(&made).status();
        assert!(
            status.is_ok_and(|status| status.success()),
            "the library is not there, and bindings/make did not make it; AWARI_LIB_DIR may name its folder"
        );
        made
    });
    println!("cargo:rustc-link-search=native={}", folder.display());
    println!("cargo:rustc-link-lib=static=awari");
}

/// The folder that the environment names.
fn named() -> Option<PathBuf> {
    env::var_os("AWARI_LIB_DIR").map(PathBuf::from)
}

/// The folder into which the library is installed, by pkg-config.
fn installed() -> Option<PathBuf> {
    let words = ["--variable=libdir", "awari"];
    let found = Command::new("pkg-config").args(words).output().ok()?;
    let folder = PathBuf::from(String::from_utf8(found.stdout).ok()?.trim());
    (found.status.success() && folder.join(LIBRARY).exists()).then_some(folder)
}
