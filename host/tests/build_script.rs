//! build.rs, compiled and run by itself on small projects: when `rt` is called, and what is said where it can't be.

use std::fs::{self, File};
use std::os::unix::fs::PermissionsExt;
use std::path::{Path, PathBuf};
use std::process::{Command, Output};
use std::sync::OnceLock;
use std::time::{Duration, SystemTime};

fn scratch() -> PathBuf {
    PathBuf::from(env!("CARGO_TARGET_TMPDIR")).join("build_script")
}

/// The build script as a program.
fn script() -> &'static Path {
    static SCRIPT: OnceLock<PathBuf> = OnceLock::new();
    SCRIPT.get_or_init(|| {
        fs::create_dir_all(scratch()).unwrap();
        let program = scratch().join("script");
        let source = concat!(env!("CARGO_MANIFEST_DIR"), "/build.rs");
        let compiler = std::env::var("RUSTC").unwrap_or("rustc".into());
        let done = Command::new(compiler).args(["--edition", "2024", source, "-o"]).arg(&program).status();
        assert!(done.expect("rustc runs").success());
        program
    })
}

/// A project of one crate, and a folder for a stand-in of `rt`.
struct Project(PathBuf);

impl Project {
    fn new(name: &str) -> Project {
        let root = scratch().join(name);
        let _ = fs::remove_dir_all(&root);
        for folder in ["host", "bin", "crates/spill/src", "crates/spill/must-fail", "crates/spill_c/src"] {
            fs::create_dir_all(root.join(folder)).unwrap();
        }
        let project = Project(root);
        for file in ["crates.txt", "crates/spill/src/source.txt", "crates/spill/must-fail/one.edit"] {
            fs::write(project.0.join(file), "x").unwrap();
            project.age(file, 1000);
        }
        project
    }

    /// Puts a stand-in for `rt` on the path; it notes each call.
    fn with_rt(self, does: &str) -> Project {
        let rt = self.0.join("bin/rt");
        fs::write(&rt, format!("#!/bin/sh\necho \"$@\" >> ../../calls\n{does}\n")).unwrap();
        fs::set_permissions(&rt, fs::Permissions::from_mode(0o755)).unwrap();
        self
    }

    /// Makes a file so many seconds old.
    fn age(&self, file: &str, seconds: u64) {
        let time = SystemTime::now() - Duration::from_secs(seconds);
        File::options().append(true).open(self.0.join(file)).unwrap().set_modified(time).unwrap();
    }

    /// Runs the script; the stand-in's own commands are found by their full path or in the shell.
    fn run(&self, settings: &[(&str, &str)]) -> Output {
        let mut command = Command::new(script());
        command.env_clear().env("PATH", self.0.join("bin")).env("CARGO_MANIFEST_DIR", self.0.join("host"));
        command.env("CARGO_CFG_TARGET_ARCH", "x86_64").envs(settings.iter().copied()).output().unwrap()
    }

    fn calls(&self) -> usize {
        fs::read_to_string(self.0.join("calls")).unwrap_or_default().lines().count()
    }
}

/// A stand-in that writes an archive.
const WRITES: &str = "/bin/mkdir -p out && echo archive > out/libspill_c.a";

fn said(done: &Output) -> String {
    String::from_utf8(done.stdout.clone()).unwrap()
}

#[test]
fn a_missing_archive_is_built_and_linked() {
    let project = Project::new("missing").with_rt(WRITES);
    let done = project.run(&[]);
    assert!(done.status.success(), "{}", said(&done));
    assert_eq!(fs::read_to_string(project.0.join("calls")).unwrap(), "lib\n");
    assert!(said(&done).contains("cargo::rustc-link-lib=static=spill\n"));
}

#[test]
fn an_archive_is_built_again_only_where_a_source_is_newer() {
    let project = Project::new("older").with_rt(WRITES);
    project.run(&[]);
    project.run(&[]);
    assert_eq!(project.calls(), 1);
    // An edit that must fail is no source of the archive.
    project.age("target/staticlib/libspill.a", 500);
    project.age("crates/spill/must-fail/one.edit", 100);
    project.run(&[]);
    assert_eq!(project.calls(), 1);
    project.age("crates/spill/src/source.txt", 100);
    project.run(&[]);
    assert_eq!(project.calls(), 2);
    project.age("target/staticlib/libspill.a", 500);
    project.age("crates/spill/src/source.txt", 1000);
    project.age("crates.txt", 100);
    project.run(&[]);
    assert_eq!(project.calls(), 3);
}

#[test]
fn a_missing_rt_is_told() {
    let done = Project::new("no_rt").run(&[]);
    assert_eq!(done.status.code(), Some(1));
    assert!(said(&done).contains("cargo::error=`rt` is not on the PATH. Install the Rattle toolchain"));
}

#[test]
fn a_failing_rt_is_told_with_its_words() {
    let done = Project::new("failing").with_rt("echo not proved; exit 1").run(&[]);
    assert_eq!(done.status.code(), Some(1));
    assert!(said(&done).contains("cargo::error=not proved\n"));
}

#[test]
fn an_rt_that_writes_nothing_is_told() {
    let done = Project::new("nothing").with_rt("exit 0").run(&[]);
    assert_eq!(done.status.code(), Some(1));
    assert!(said(&done).contains("cargo::error=there is no "));
}

#[test]
fn a_ready_archive_needs_no_rt_and_no_project() {
    let project = Project::new("ready");
    fs::remove_file(project.0.join("crates.txt")).unwrap();
    fs::write(project.0.join("bin/libspill.a"), "archive").unwrap();
    let folder = project.0.join("bin");
    let done = project.run(&[("SPILL_ARCHIVE_DIR", folder.to_str().unwrap())]);
    assert!(done.status.success(), "{}", said(&done));
    let done = project.run(&[]);
    assert_eq!(done.status.code(), Some(1));
    assert!(said(&done).contains("set SPILL_ARCHIVE_DIR"));
}

#[test]
fn another_processor_is_told() {
    let done = Project::new("arm").with_rt(WRITES).run(&[("CARGO_CFG_TARGET_ARCH", "aarch64")]);
    assert_eq!(done.status.code(), Some(1));
    assert!(said(&done).contains("--target x86_64-unknown-linux-gnu"));
}
