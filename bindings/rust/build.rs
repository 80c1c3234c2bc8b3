//! Says where `libcalmizsed` is: in `CALMIZSED_LIB_DIR`, where pkg-config finds it, or where the
//! Makefile puts it in the tree, or in a tar.
#![forbid(unsafe_code)]

use std::env;
use std::fs;
use std::path::{Path, PathBuf};
use std::process::Command;

const FOLDER: &str = "CALMIZSED_LIB_DIR";
const ARCHIVE: &str = "libcalmizsed.a";
const PKG_CONFIG: &str = "PKG_CONFIG";

fn main() {
    for variable in [FOLDER, PKG_CONFIG, "PKG_CONFIG_PATH", "PKG_CONFIG_LIBDIR"] {
        println!("cargo:rerun-if-env-changed={variable}");
    }
    if let Err(why) = library().and_then(|folder| link(&folder)) {
        eprintln!("calmizsed: {why}");
        std::process::exit(1);
    }
}

/// The folder with the library.
fn library() -> Result<PathBuf, String> {
    if let Some(folder) = env::var_os(FOLDER) {
        return Ok(PathBuf::from(folder));
    }
    if let Some(folder) = by_pkg_config() {
        return Ok(folder);
    }
    for place in ["../../out/c", "../../lib"] {
        let tree = Path::new(env!("CARGO_MANIFEST_DIR")).join(place);
        if tree.join(ARCHIVE).exists() {
            return Ok(tree);
        }
    }
    Err(format!(
        "there is no {ARCHIVE}: `make` at the top of the tree builds it, `make install` lets pkg-config find it, and {FOLDER} \
         names the folder of another one"
    ))
}

/// The folder of an installed library, if pkg-config knows one.
fn by_pkg_config() -> Option<PathBuf> {
    let program = env::var_os(PKG_CONFIG).unwrap_or_else(|| "pkg-config".into());
    let said = Command::new(program)
        .args(["--libs-only-L", "calmizsed"])
        .env("PKG_CONFIG_ALLOW_SYSTEM_LIBS", "1")
        .output()
        .ok()?;
    if !said.status.success() {
        return None;
    }
    let words = String::from_utf8(said.stdout).ok()?;
    words.trim().strip_prefix("-L").map(PathBuf::from)
}

/// Links the archive of this folder, if it is of this crate's version.
fn link(folder: &Path) -> Result<(), String> {
    let archive = folder.join(ARCHIVE);
    if !archive.exists() {
        return Err(format!("there is no {}", archive.display()));
    }
    for described in ["calmizsed.pc", "pkgconfig/calmizsed.pc"].map(|name| folder.join(name)) {
        let text = match fs::read_to_string(&described) {
            Ok(text) => text,
            Err(_) => continue,
        };
        let version = text
            .lines()
            .find_map(|line| line.strip_prefix("Version: "))
            .unwrap_or("unknown");
        if version.trim() != env!("CARGO_PKG_VERSION") {
            return Err(format!(
                "{} is of version {version}, and this crate stands on {}",
                archive.display(),
                env!("CARGO_PKG_VERSION")
            ));
        }
        println!("cargo:rerun-if-changed={}", described.display());
    }
    println!("cargo:rerun-if-changed={}", archive.display());
    println!("cargo:rustc-link-search=native={}", folder.display());
    println!("cargo:rustc-link-lib=static=calmizsed");
    Ok(())
}
