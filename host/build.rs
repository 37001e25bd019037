//! Links libspill.a, and has `rt` write it first where it is missing or older than the crates' sources.
//! SPILL_ARCHIVE_DIR, where set, names a folder that holds a ready libspill.a, and nothing is built.

use std::path::{Path, PathBuf};
use std::process::{Command, exit};
use std::time::SystemTime;
use std::{env, fs, io};

fn main() {
    println!("cargo::rerun-if-changed=build.rs");
    println!("cargo::rerun-if-env-changed=SPILL_ARCHIVE_DIR");
    if env::var("CARGO_CFG_TARGET_ARCH").as_deref() != Ok("x86_64") {
        fail("libspill.a holds x86-64 code: build with --target x86_64-unknown-linux-gnu");
    }
    let folder = match env::var_os("SPILL_ARCHIVE_DIR") {
        Some(ready) => PathBuf::from(ready),
        None => built(&project_root()),
    };
    let archive = folder.join("libspill.a");
    if !archive.is_file() {
        fail(&format!("there is no {}", archive.display()));
    }
    println!("cargo::rerun-if-changed={}", archive.display());
    println!("cargo::rustc-link-search=native={}", folder.display());
    println!("cargo::rustc-link-lib=static=spill");
    println!("cargo::rustc-env=SPILL_ARCHIVE={}", archive.display());
}

/// The folder above this package: it has crates.txt and crates/.
fn project_root() -> PathBuf {
    let package = PathBuf::from(env::var_os("CARGO_MANIFEST_DIR").expect("cargo sets it"));
    let root = package.parent().map(Path::to_path_buf).unwrap_or_default();
    if !root.join("crates.txt").is_file() {
        fail(
            "no crates.txt in the folder above this package: set SPILL_ARCHIVE_DIR to the folder of a ready libspill.a",
        );
    }
    root
}

/// The folder of the archive, after `rt lib` in crates/spill_c where the archive is not up to date.
fn built(root: &Path) -> PathBuf {
    let crates = root.join("crates");
    println!("cargo::rerun-if-changed={}", root.join("crates.txt").display());
    println!("cargo::rerun-if-changed={}", crates.display());
    let folder = root.join("target").join("staticlib");
    let newest = newest_source(root, &crates).unwrap_or_else(|e| fail(&format!("reading {}: {e}", crates.display())));
    if changed(&folder.join("libspill.a")).is_none_or(|archive| archive < newest) {
        run_rt(root, &folder);
    }
    folder
}

/// Runs `rt lib` in crates/spill_c and copies the archive to its folder, under its name. It proves what it compiles, which takes
/// minutes from nothing.
fn run_rt(root: &Path, folder: &Path) {
    let spill_c = root.join("crates").join("spill_c");
    match Command::new("rt").arg("lib").current_dir(&spill_c).output() {
        Ok(done) if done.status.success() => copy(&spill_c.join("out").join("libspill_c.a"), &folder.join("libspill.a")),
        Ok(done) => fail(&format!(
            "`rt lib` in crates/spill_c failed ({}):\n{}{}",
            done.status,
            String::from_utf8_lossy(&done.stdout),
            String::from_utf8_lossy(&done.stderr)
        )),
        Err(e) if e.kind() == io::ErrorKind::NotFound => fail(
            "`rt` is not on the PATH. Install the Rattle toolchain, which has it, \
             or set SPILL_ARCHIVE_DIR to the folder of a ready libspill.a",
        ),
        Err(e) => fail(&format!("`rt` could not be run: {e}")),
    }
}

/// Copies the archive, where there is one.
fn copy(made: &Path, archive: &Path) {
    if !made.is_file() {
        return;
    }
    let folder = archive.parent().unwrap_or(Path::new("."));
    let done = fs::create_dir_all(folder).and_then(|()| fs::copy(made, archive));
    done.unwrap_or_else(|e| fail(&format!("{}: {e}", archive.display())));
}

/// When the newest file that the archive is made of was changed: crates.txt, and each crate's src, specs and proofs.
fn newest_source(root: &Path, crates: &Path) -> io::Result<SystemTime> {
    let mut newest = fs::metadata(root.join("crates.txt"))?.modified()?;
    for entry in fs::read_dir(crates)? {
        for part in ["src", "specs", "proofs"] {
            let folder = entry.as_ref().map_err(|e| io::Error::new(e.kind(), e.to_string()))?.path().join(part);
            if folder.is_dir() {
                newest = newest.max(newest_in(&folder)?);
            }
        }
    }
    Ok(newest)
}

/// When the newest file of a folder, or of a folder in it, was changed.
fn newest_in(folder: &Path) -> io::Result<SystemTime> {
    let mut newest = SystemTime::UNIX_EPOCH;
    for entry in fs::read_dir(folder)? {
        let path = entry?.path();
        let time = if path.is_dir() { newest_in(&path)? } else { fs::metadata(&path)?.modified()? };
        newest = newest.max(time);
    }
    Ok(newest)
}

fn changed(file: &Path) -> Option<SystemTime> {
    fs::metadata(file).and_then(|m| m.modified()).ok()
}

/// Ends the build with a message that cargo shows.
fn fail(message: &str) -> ! {
    for line in message.lines() {
        println!("cargo::error={line}");
    }
    exit(1)
}
