//! Links the static library in the folder that COMMONWARE_C_LIB names, else the one that comes with
//! this repository, where PROVED says that it is of the crate's version, has these bytes and is of
//! these sources.

use std::ffi::OsString;
use std::fs::{self, File};
use std::path::{Path, PathBuf};
use std::process::{Command, Output};
use std::{env, io};

/// Where the library of this repository is, from the crate's folder.
const PREBUILT: &str = "../prebuilt/x86_64-linux";

/// Where PROVED is, from the archive's folder: beside it, or where `bindings/install` puts it.
const PROVED: [&str; 2] = ["PROVED", "../share/doc/commonware/PROVED"];

fn main() {
    println!("cargo::rerun-if-env-changed=COMMONWARE_C_LIB");
    watch(Path::new("build.rs"));
    if let Err(why) = link() {
        println!("cargo::error={why}");
    }
}

/// Links the library, or returns why not.
fn link() -> Result<(), String> {
    check_target()?;
    let krate = PathBuf::from(variable("CARGO_MANIFEST_DIR")?);
    let named = env::var_os("COMMONWARE_C_LIB").filter(|folder| !folder.is_empty());
    let folder = krate.join(named.map_or(Ok(PREBUILT.into()), one_line)?);
    let archive = folder.join("libcommonware.a");
    if !archive.is_file() {
        return Err(format!(
            "there is no {}: COMMONWARE_C_LIB takes the absolute path of a folder that has \
             libcommonware.a, as `bindings/archive` makes it",
            archive.display()
        ));
    }
    watch(&archive);
    let proved = read_proved(&folder)?;
    check_version(&proved, &folder)?;
    check_sources(&proved, &folder, &krate)?;
    link_copy(&proved, &archive)?;
    // A test compares these with the sources each time that it runs.
    let sources = said(&proved, "sources ").unwrap_or_default();
    println!("cargo::rustc-env=COMMONWARE_SOURCES={sources}");
    Ok(())
}

/// Links a copy of the archive that has the checksum in PROVED. Its name has the start of that, so
/// that a folder of RUSTFLAGS, which is searched first, has no other library of the name.
fn link_copy(proved: &str, archive: &Path) -> Result<(), String> {
    let stated = checksum(proved).ok_or_else(|| {
        format!(
            "the PROVED of {} has no line with its SHA-256",
            archive.display()
        )
    })?;
    let name = format!("commonware_{}", &stated[..16]);
    let folder = PathBuf::from(variable("OUT_DIR")?);
    let copy = folder.join(format!("lib{name}.a"));
    let bytes = fs::read(archive).map_err(|error| format!("{}: {error}", archive.display()))?;
    fs::write(&copy, bytes).map_err(|error| format!("{}: {error}", copy.display()))?;
    match sha256(&copy) {
        Ok(digits) if digits == stated => {}
        Ok(digits) => {
            return Err(format!(
                "{} isn't the library of its PROVED: its SHA-256 is {digits}, and that of PROVED \
                 is {stated}",
                archive.display()
            ));
        }
        Err(why) => {
            println!("cargo::warning=the library isn't compared with its SHA-256: {why}");
            watch_nothing(&folder);
        }
    }
    println!("cargo::rustc-link-search=native={}", folder.display());
    println!("cargo::rustc-link-lib=static={name}");
    Ok(())
}

/// Returns a path that COMMONWARE_C_LIB has, where it can be told to cargo.
fn one_line(named: OsString) -> Result<PathBuf, String> {
    match named.to_str() {
        Some(path) if !path.contains(['\n', '\r']) => Ok(named.into()),
        _ => Err(format!(
            "COMMONWARE_C_LIB is {named:?}, and cargo takes only a path that is UTF-8 on one line"
        )),
    }
}

/// Has cargo run this script again where the file changes, or a file of the folder.
fn watch(path: &Path) {
    println!("cargo::rerun-if-changed={}", path.display());
}

/// Has cargo run this script again each time, by a path in a folder that is never there.
fn watch_nothing(folder: &Path) {
    watch(&folder.join("a program can't be run"));
}

/// Returns a variable that cargo sets.
fn variable(name: &str) -> Result<String, String> {
    env::var(name).map_err(|error| format!("cargo sets no {name} that can be read: {error}"))
}

/// The library is for one target.
fn check_target() -> Result<(), String> {
    let arch = variable("CARGO_CFG_TARGET_ARCH")?;
    let system = variable("CARGO_CFG_TARGET_OS")?;
    if (&arch[..], &system[..]) == ("x86_64", "linux") {
        return Ok(());
    }
    Err(format!(
        "the library is for x86_64 Linux, and the target is {arch} {system}"
    ))
}

/// Returns the text that says what the library of a folder was made of.
fn read_proved(folder: &Path) -> Result<String, String> {
    let places = PROVED.map(|place| folder.join(place));
    let Some(path) = places.iter().find(|path| path.is_file()) else {
        return Err(format!(
            "there is no PROVED beside libcommonware.a in {}, nor at {} from there: it says of \
             which version and sources the library is",
            folder.display(),
            PROVED[1]
        ));
    };
    watch(path);
    fs::read_to_string(path).map_err(|error| format!("{}: {error}", path.display()))
}

/// Returns what follows a word in the comments of PROVED.
fn said<'a>(proved: &'a str, word: &str) -> Option<&'a str> {
    let mut lines = proved.lines();
    lines.find_map(|line| Some(line.strip_prefix("# ")?.strip_prefix(word)?.trim()))
}

/// Returns the SHA-256 of the archive in PROVED, which is 64 hexadecimal digits.
fn checksum(proved: &str) -> Option<&str> {
    let mut lines = proved.lines();
    let digits = lines.find_map(|line| line.strip_suffix("  libcommonware.a"))?;
    let is_digit = |byte: u8| byte.is_ascii_hexdigit();
    (digits.len() == 64 && digits.bytes().all(is_digit)).then_some(digits)
}

/// Returns the SHA-256 of a file, in hexadecimal.
fn sha256(path: &Path) -> Result<String, String> {
    let file = File::open(path).map_err(|error| format!("{}: {error}", path.display()))?;
    let printed = text_of("sha256sum", Command::new("sha256sum").stdin(file).output())?;
    // The digits come before the name of the file, which is `-`.
    let digits = printed.split(' ').next();
    Ok(digits.unwrap_or_default().to_owned())
}

/// The library has the major version of this crate, and its minor version or a later one, so that
/// it has each call.
fn check_version(proved: &str, folder: &Path) -> Result<(), String> {
    let major = variable("CARGO_PKG_VERSION_MAJOR")?;
    let minor = variable("CARGO_PKG_VERSION_MINOR")?;
    let version = said(proved, "version ").unwrap_or("(none)");
    let mut parts = version.split('.');
    let is_major = parts.next() == Some(&major);
    let theirs: Option<u32> = parts.next().and_then(|part| part.parse().ok());
    if is_major && theirs >= minor.parse().ok() {
        return Ok(());
    }
    Err(format!(
        "libcommonware.a in {} has version {version}, and this crate takes version {major}.{minor} \
         or a later one of {major}",
        folder.display()
    ))
}

/// The library is of the sources in this repository, where the crate is in it.
fn check_sources(proved: &str, folder: &Path, krate: &Path) -> Result<(), String> {
    let script = krate.join("../sources");
    if !script.is_file() || !krate.join("../../crates/commonware_c").is_dir() {
        return Ok(());
    }
    watch(&script);
    let said_now = run(&script, &["--folders"]).and_then(|folders| {
        watch_sources(&folders, krate);
        run(&script, &[])
    });
    let now = match said_now {
        Ok(now) => now,
        Err(why) => {
            println!("cargo::warning=the library isn't compared with its sources: {why}");
            watch_nothing(krate);
            return Ok(());
        }
    };
    if said(proved, "sources ") == Some(now.trim()) {
        return Ok(());
    }
    Err(format!(
        "libcommonware.a in {} isn't of these sources: `bindings/archive --update` builds it anew \
         into bindings/prebuilt; without a Rattle kit check out the last commit that changed \
         bindings/prebuilt (`git log -1 --format=%h -- bindings/prebuilt`)",
        folder.display()
    ))
}

/// Has cargo run this script again where a source of the library changes: those that all have, and
/// those of these folders, one a line.
fn watch_sources(folders: &str, krate: &Path) {
    let root = krate.join("../..");
    let paths = ["HANDLES", "crates.txt"].into_iter().chain(folders.lines());
    for path in paths.map(|path| root.join(path)) {
        if path.exists() {
            watch(&path);
        }
    }
}

/// Returns what a program prints.
fn run(program: &Path, words: &[&str]) -> Result<String, String> {
    let name = program.display().to_string();
    text_of(&name, Command::new(program).args(words).output())
}

/// Returns what a program of this name has printed.
fn text_of(name: &str, output: io::Result<Output>) -> Result<String, String> {
    let output = output.map_err(|error| format!("{name} can't be run: {error}"))?;
    if !output.status.success() {
        return Err(format!("{name} ends with {}", output.status));
    }
    String::from_utf8(output.stdout).map_err(|error| format!("{name} prints no text: {error}"))
}
