//! What the build script links, and what it refuses. It is compiled, and run as cargo runs it over
//! a small repository whose archive is the text `abc`.

use std::ffi::{OsStr, OsString};
use std::fs::{self, Permissions};
use std::os::unix::ffi::OsStrExt;
use std::os::unix::fs::PermissionsExt;
use std::path::{Path, PathBuf};
use std::process::Command;
use std::sync::{Mutex, MutexGuard, OnceLock, PoisonError};
use std::{env, iter};

/// The SHA-256 of `abc`, as FIPS 180-2 has it.
const ABC: &str = "ba7816bf8f01cfea414140de5dae2223b00361a396177a9cb410ff61f20015ad";

/// Returns a new folder of this name.
fn new_folder(name: &str) -> PathBuf {
    let folder = Path::new(env!("CARGO_TARGET_TMPDIR"))
        .join("build_script")
        .join(name);
    let _ = fs::remove_dir_all(&folder);
    fs::create_dir_all(&folder).expect("a folder");
    folder
}

/// Returns the compiled build script.
fn build_script() -> &'static Path {
    static COMPILED: OnceLock<PathBuf> = OnceLock::new();
    COMPILED.get_or_init(|| {
        let compiled = new_folder("compiled").join("build_script");
        let source = Path::new(env!("CARGO_MANIFEST_DIR")).join("build.rs");
        let mut rustc = Command::new(env::var_os("RUSTC").unwrap_or("rustc".into()));
        rustc
            .args(["--edition", "2024", "-o"])
            .args([&compiled, &source]);
        assert!(rustc.status().expect("rustc is run").success());
        compiled
    })
}

/// Has one thread write a program, or start one: a program that is still open in a process that
/// another thread starts can't be run.
fn one_at_a_time() -> MutexGuard<'static, ()> {
    static TURN: Mutex<()> = Mutex::new(());
    TURN.lock().unwrap_or_else(PoisonError::into_inner)
}

/// A repository with a crate, and a library for it.
struct Repository {
    root: PathBuf,
    /// Variables beside those that cargo sets.
    variables: Vec<(&'static str, OsString)>,
}

impl Repository {
    fn new(name: &str) -> Repository {
        let root = new_folder(name);
        for folder in ["bindings/rust", "bindings/prebuilt/x86_64-linux", "out"] {
            fs::create_dir_all(root.join(folder)).expect("a folder");
        }
        let path = env::var_os("PATH").unwrap_or_default();
        let repository = Repository {
            root,
            variables: vec![("PATH", path)],
        };
        repository.write_archive("abc");
        repository.write_proved(&format!("{ABC}  libcommonware.a\n"));
        repository
    }

    fn write_archive(&self, text: &str) {
        let folder = self.root.join("bindings/prebuilt/x86_64-linux");
        fs::write(folder.join("libcommonware.a"), text).expect("a file");
    }

    fn write_proved(&self, checksums: &str) {
        self.write_version(env!("CARGO_PKG_VERSION"), checksums);
    }

    fn write_version(&self, version: &str, checksums: &str) {
        let text = format!("# version {version}\n# sources 0123\n{checksums}");
        let folder = self.root.join("bindings/prebuilt/x86_64-linux");
        fs::write(folder.join("PROVED"), text).expect("a file");
    }

    /// Adds a program `bindings/sources` that leaves a file `ran` and prints a line.
    fn add_sources(&self, line: &str) {
        let _turn = one_at_a_time();
        let (script, ran) = (self.root.join("bindings/sources"), self.root.join("ran"));
        let text = format!("#!/bin/sh\n: >'{}'\necho {line}\n", ran.display());
        fs::write(&script, text).expect("a file");
        fs::set_permissions(&script, Permissions::from_mode(0o755)).expect("a program");
    }

    fn add_library_sources(&self) {
        fs::create_dir_all(self.root.join("crates/commonware_c")).expect("a folder");
    }

    /// Runs the build script; returns what it tells cargo to do, but for what is watched.
    fn told(&self) -> Vec<String> {
        let _turn = one_at_a_time();
        let mut script = Command::new(build_script());
        script.env_clear();
        script.env("CARGO_MANIFEST_DIR", self.root.join("bindings/rust"));
        script.env("CARGO_PKG_VERSION_MAJOR", env!("CARGO_PKG_VERSION_MAJOR"));
        script.env("CARGO_PKG_VERSION_MINOR", env!("CARGO_PKG_VERSION_MINOR"));
        script.envs(self.variables.iter().cloned());
        script.envs([
            ("CARGO_CFG_TARGET_ARCH", "x86_64"),
            ("CARGO_CFG_TARGET_OS", "linux"),
        ]);
        let output = script
            .env("OUT_DIR", self.root.join("out"))
            .output()
            .expect("it is run");
        assert!(
            output.status.success() && output.stderr.is_empty(),
            "{output:?}"
        );
        let text = String::from_utf8(output.stdout).expect("a text");
        let lines = text
            .lines()
            .filter(|line| !line.starts_with("cargo::rerun-if-"));
        lines.map(str::to_owned).collect()
    }

    /// Returns what cargo is told where the library is linked.
    fn linked(&self) -> Vec<String> {
        vec![
            format!(
                "cargo::rustc-link-search=native={}/out",
                self.root.display()
            ),
            "cargo::rustc-link-lib=static=commonware_ba7816bf8f01cfea".to_owned(),
            "cargo::rustc-env=COMMONWARE_SOURCES=0123".to_owned(),
        ]
    }

    /// The library is refused in one sentence, which has these words.
    fn is_refused(&self, words: &[&str]) {
        let told = self.told();
        let [line] = &told[..] else {
            panic!("{told:?}");
        };
        let sentence = line.strip_prefix("cargo::error=").expect("an error");
        assert!(
            words.iter().all(|word| sentence.contains(word)),
            "{sentence}"
        );
    }
}

#[test]
fn a_copy_is_linked_by_a_name_of_its_own() {
    let repository = Repository::new("copy");
    let archive = repository
        .root
        .join("bindings/prebuilt/x86_64-linux/libcommonware.a");
    // Who installs an archive may make it read-only; the script runs more than once.
    fs::set_permissions(archive, Permissions::from_mode(0o444)).expect("a file");
    for _ in 0..2 {
        assert_eq!(repository.told(), repository.linked());
        let copy = repository.root.join("out/libcommonware_ba7816bf8f01cfea.a");
        assert_eq!(fs::read(copy).expect("a copy"), b"abc");
    }
}

#[test]
fn an_archive_of_another_checksum_is_refused() {
    let repository = Repository::new("changed");
    assert_eq!(repository.told(), repository.linked());
    repository.write_archive("abd");
    repository.is_refused(&["libcommonware.a", "SHA-256", ABC]);
    repository.write_archive("");
    repository.is_refused(&["libcommonware.a", "SHA-256", ABC]);
}

#[test]
fn a_list_without_the_checksum_is_refused() {
    let repository = Repository::new("unlisted");
    let short = &ABC[1..];
    let others = [
        "",
        "  libcommonware.a\n",
        &format!("{ABC}  libcommonware.so.2\n"),
    ];
    for checksums in others
        .into_iter()
        .chain([&*format!("{short}  libcommonware.a\n")])
    {
        repository.write_proved(checksums);
        repository.is_refused(&["PROVED", "SHA-256"]);
    }
}

#[test]
fn an_earlier_version_and_another_major_one_are_refused() {
    let mut repository = Repository::new("versions");
    let checksums = format!("{ABC}  libcommonware.a\n");
    // The crate is version 3.4 to the script, so that there is an earlier minor version.
    let variables = [
        ("CARGO_PKG_VERSION_MAJOR", "3".into()),
        ("CARGO_PKG_VERSION_MINOR", "4".into()),
    ];
    repository.variables.extend(variables);
    for later in ["3.4.0", "3.5.0", "3.14.0"] {
        repository.write_version(later, &checksums);
        assert_eq!(repository.told(), repository.linked(), "{later}");
    }
    for version in ["3.3.9", "4.4.0", "2.4.0", "3", "3.x.0"] {
        repository.write_version(version, &checksums);
        let taken = "version 3.4 or a later one of 3";
        repository.is_refused(&[&format!("version {version}, "), taken]);
    }
}

#[test]
fn where_nothing_can_be_compared_a_warning_says_so() {
    let mut repository = Repository::new("bare");
    repository.variables = vec![("PATH", repository.root.clone().into())];
    let told = repository.told();
    assert_eq!(told[1..], repository.linked());
    assert!(
        told[0].starts_with("cargo::warning=") && told[0].contains("sha256sum"),
        "{told:?}"
    );
}

#[test]
fn sources_are_those_of_the_library_alone() {
    let repository = Repository::new("sources");
    repository.add_sources("4567");
    assert_eq!(repository.told(), repository.linked());
    assert!(
        !repository.root.join("ran").exists(),
        "another program of the name isn't run"
    );
    repository.add_library_sources();
    repository.is_refused(&["libcommonware.a", "sources", "`git log -1 "]);
    assert!(repository.root.join("ran").exists());
    repository.add_sources("0123");
    assert_eq!(repository.told(), repository.linked());
}

#[test]
fn a_folder_that_cargo_cannot_take_is_refused() {
    let mut repository = Repository::new("named");
    let folder = repository.root.join("bindings/prebuilt/x86_64-linux");
    for other in [&b"line\nbreak"[..], b"carriage\rreturn", b"\xff"] {
        let named = repository.root.join(OsStr::from_bytes(other));
        fs::create_dir(&named).expect("a folder");
        for file in ["libcommonware.a", "PROVED"] {
            fs::copy(folder.join(file), named.join(file)).expect("a file");
        }
        let path = env::var_os("PATH").unwrap_or_default();
        repository.variables = vec![("PATH", path), ("COMMONWARE_C_LIB", named.into())];
        repository.is_refused(&["COMMONWARE_C_LIB", "UTF-8 on one line"]);
    }
    let named = iter::once(("COMMONWARE_C_LIB", folder.into()));
    repository.variables.truncate(1);
    repository.variables.extend(named);
    assert_eq!(repository.told(), repository.linked());
}
