//! Finds `libpslink.a`: in the folder that PSLINK_LIB_DIR names, or else in `../../lib`, as in an archive
//! of pslink that is unpacked, or else in that of pkg-config, or else in the usual ones. A relative PSLINK_LIB_DIR is one of the folder in which cargo was
//! called, or else of this crate's.

use std::env;
use std::path::{Path, PathBuf};
use std::process::{exit, Command};

const ARCHIVE: &str = "libpslink.a";
const USUAL: [&str; 5] = [
    "/usr/local/lib",
    "/usr/local/lib64",
    "/usr/lib/x86_64-linux-gnu",
    "/usr/lib64",
    "/usr/lib",
];

/// The folder that pkg-config has for a variable of the library, where it has one. (A blank of its
/// path may have a backslash there, by where pslink.pc is.)
fn of_pkg_config(variable: &str) -> Option<PathBuf> {
    let program = env::var_os("PKG_CONFIG").unwrap_or_else(|| "pkg-config".into());
    let found = Command::new(program)
        .args([&format!("--variable={variable}"), "pslink"])
        .output()
        .ok()?;
    let value = String::from_utf8(found.stdout).ok()?;
    [value.trim(), &value.trim().replace("\\ ", " ")]
        .iter()
        .map(PathBuf::from)
        .find(|folder| found.status.success() && folder.is_dir())
}

/// Has this script run again when the environment has another value.
fn depends_on(variable: &str) {
    println!("cargo:rerun-if-env-changed={variable}");
}

/// Has this script run again when a file, or a file in a folder, is changed. (What is not there
/// would have it run each time.)
fn depends_on_file(path: &Path) {
    if path.exists() {
        println!("cargo:rerun-if-changed={}", path.display());
    }
}

/// The folders that PSLINK_LIB_DIR may name, whole: the linker runs in another folder than this
/// script, and this script in another one than cargo.
fn named(folder: &Path) -> Vec<PathBuf> {
    if folder.is_absolute() {
        return vec![folder.into()];
    }
    depends_on("PWD");
    let called_in = env::var_os("PWD").map(PathBuf::from);
    called_in
        .into_iter()
        .chain(env::current_dir())
        .map(|here| here.join(folder))
        .collect()
}

/// The folders in which the archive may be, the likeliest first.
fn folders() -> Vec<PathBuf> {
    if let Some(folder) = env::var_os("PSLINK_LIB_DIR") {
        return named(Path::new(&folder));
    }
    let beside =
        Path::new(&env::var_os("CARGO_MANIFEST_DIR").unwrap_or_default()).join("../../lib");
    if beside.join(ARCHIVE).is_file() {
        return vec![beside];
    }
    if let Some(folder) = of_pkg_config("pcfiledir") {
        depends_on_file(&folder.join("pslink.pc"));
    }
    of_pkg_config("libdir")
        .into_iter()
        .chain(USUAL.map(PathBuf::from))
        .collect()
}

fn main() {
    for variable in [
        "PSLINK_LIB_DIR",
        "PKG_CONFIG",
        "PKG_CONFIG_PATH",
        "PKG_CONFIG_LIBDIR",
    ] {
        depends_on(variable);
    }
    depends_on_file(Path::new("build.rs"));
    let folders = folders();
    let Some(folder) = folders.iter().find(|folder| folder.join(ARCHIVE).is_file()) else {
        println!(
            "cargo:warning={ARCHIVE} is in none of {folders:?}: name its folder in PSLINK_LIB_DIR"
        );
        exit(1);
    };
    // A replaced archive is seen, and one that comes or goes.
    depends_on_file(folder);
    depends_on_file(&folder.join(ARCHIVE));
    println!("cargo:rustc-link-search=native={}", folder.display());
    println!("cargo:rustc-link-lib=static=pslink");
}
