//! Finds the archive `libmspdi.a`: the one that MSPDI_ARCHIVE names, or the one that `rt lib` makes of crates/mspdi_c.

use std::env;
use std::path::{Path, PathBuf};
use std::process::{Command, exit};

fn main() {
    println!("cargo:rerun-if-env-changed=MSPDI_ARCHIVE");
    let archive = match env::var_os("MSPDI_ARCHIVE") {
        Some(path) => PathBuf::from(path),
        None => made_here(),
    };
    let Ok(archive) = archive.canonicalize() else {
        stop(&format!("no archive at {}: set MSPDI_ARCHIVE to the path of libmspdi.a", archive.display()));
    };
    println!("cargo:rerun-if-changed={}", archive.display());
    // The archive is linked by its own path, whatever its name.
    let folder = PathBuf::from(env::var_os("OUT_DIR").unwrap_or_default());
    if let Err(why) = std::fs::copy(&archive, folder.join("libmspdi.a")) {
        stop(&format!("cannot copy {}: {why}", archive.display()));
    }
    println!("cargo:rustc-link-search=native={}", folder.display());
    println!("cargo:rustc-link-lib=static=mspdi");
}

/// Runs `rt lib` in crates/mspdi_c of the repository above this crate.
fn made_here() -> PathBuf {
    let root = Path::new(env!("CARGO_MANIFEST_DIR")).join("..");
    for source in ["crates", "crates.txt"] {
        println!("cargo:rerun-if-changed={}", root.join(source).display());
    }
    let exports = root.join("crates/mspdi_c");
    match Command::new("rt").arg("lib").current_dir(&exports).output() {
        Ok(run) if run.status.success() => exports.join("out/libmspdi_c.a"),
        Ok(run) => stop(&format!("`rt lib` failed in crates/mspdi_c ({}); run it there, or set MSPDI_ARCHIVE to libmspdi.a", last_line(&run.stdout))),
        Err(_) => stop("`rt` is not in PATH: install the Rattle kit, or set MSPDI_ARCHIVE to the path of libmspdi.a"),
    }
}

fn last_line(bytes: &[u8]) -> String {
    String::from_utf8_lossy(bytes).lines().last().unwrap_or("it said nothing").to_owned()
}

/// One line that says what to do.
fn stop(why: &str) -> ! {
    eprintln!("mspdi: {why}");
    exit(1)
}
