//! With the feature `system` it finds the installed library and links it: `libunftp_control.a`.
//! Without that feature it does nothing, since the crate has the machine code of the calls.
use std::env;
use std::path::{Path, PathBuf};
use std::process::Command;

#[path = "src/version.rs"]
mod version;

const LIBRARY: &str = "libunftp_control.a";
const VARIABLE: &str = "UNFTP_CONTROL_LIB";

fn main() {
    println!("cargo:rerun-if-changed=build.rs");
    if env::var_os("CARGO_FEATURE_SYSTEM").is_none() {
        return;
    }
    for variable in [VARIABLE, "PKG_CONFIG", "PKG_CONFIG_PATH", "PKG_CONFIG_LIBDIR"] {
        println!("cargo:rerun-if-env-changed={variable}");
    }
    let Some(folder) = named_folder().or_else(installed_folder) else {
        panic!(
            "{LIBRARY}, {}, is not found: install it so that `pkg-config unftp_control` finds it, \
             set {VARIABLE} to its folder, or do without the feature `system`.",
            version::needed(),
        );
    };
    println!("cargo:rerun-if-changed={}", folder.join(LIBRARY).display());
    println!("cargo:rustc-link-search=native={}", folder.display());
    println!("cargo:rustc-link-lib=static=unftp_control");
}

/// The folder that the environment names, or the one of libraries in it.
fn named_folder() -> Option<PathBuf> {
    let named = PathBuf::from(env::var_os(VARIABLE)?);
    let folder = [named.clone(), named.join("lib")].into_iter().find(|folder| has_library(folder));
    if folder.is_none() {
        panic!("{VARIABLE} has to name the folder of {LIBRARY}, and {named:?} has none.");
    }
    folder
}

fn has_library(folder: &Path) -> bool {
    folder.join(LIBRARY).is_file()
}

/// The folder that pkg-config knows, where the version fits.
fn installed_folder() -> Option<PathBuf> {
    let installed = pkg_config("--modversion")?;
    if !number(&installed).is_some_and(version::fits) {
        println!(
            "cargo:warning=pkg-config knows unftp_control {installed}, and not {}",
            version::needed()
        );
        return None;
    }
    let folder = PathBuf::from(pkg_config("--variable=libdir")?);
    has_library(&folder).then_some(folder)
}

/// What pkg-config says of the library.
fn pkg_config(question: &str) -> Option<String> {
    let program = env::var_os("PKG_CONFIG").unwrap_or_else(|| "pkg-config".into());
    let output = Command::new(program).args([question, "unftp_control"]).output().ok()?;
    let answer = String::from_utf8(output.stdout).ok()?;
    output.status.success().then(|| answer.trim().to_string())
}

/// A version of three numbers below 1,000 as one number.
fn number(version: &str) -> Option<u32> {
    let parts: Vec<u32> =
        version.split('.').map(|part| part.parse().ok()).collect::<Option<_>>()?;
    match parts[..] {
        [major, minor @ 0..=999, patch @ 0..=999] => {
            major.checked_mul(1_000_000)?.checked_add(minor * 1_000 + patch)
        }
        _ => None,
    }
}
