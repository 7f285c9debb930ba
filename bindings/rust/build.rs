//! Finds or builds the static library, and tells the linker where it is. Only linking needs it: if there is none, this says why and
//! the crate can still be checked and documented.

use std::env;
use std::fs;
use std::io::ErrorKind;
use std::path::{Path, PathBuf};
use std::process::Command;

const VARIABLE: &str = "LATCHBEACON_LIBRARY";
const FILE: &str = "liblatchbeacon.a";

// The command that builds the library for a machine, the folder of the project that it is run in, and the one that it writes it to.
struct Maker {
    command: &'static str,
    words: &'static [&'static str],
    place: &'static str,
    folder: &'static str,
}

const X86_64: Maker = Maker { command: "rt", words: &["lib"], place: "crates/latchbeacon", folder: "crates/latchbeacon/out" };
const AARCH64: Maker = Maker { command: "bash", words: &["tools/arm"], place: ".", folder: "target/aarch64" };

// Links the library that is named or built, or warns that there is none.
fn main() {
    println!("cargo:rerun-if-changed=build.rs");
    println!("cargo:rerun-if-env-changed={VARIABLE}");
    let folder = PathBuf::from(env::var_os("OUT_DIR").unwrap_or_default());
    let copy = folder.join(FILE);
    // No library of an earlier build is linked.
    let _ = fs::remove_file(&copy);
    if let Err(message) = library().and_then(|path| take(&path, &copy)) {
        println!("cargo:warning=there is no static library, so that this can be checked and documented, but not linked");
        message.lines().for_each(|line| println!("cargo:warning={line}"));
        // It is looked for again in the next build.
        println!("cargo:rerun-if-changed={}", copy.display());
    }
    println!("cargo:rustc-link-search=native={}", folder.display());
    println!("cargo:rustc-link-lib=static=latchbeacon");
}

// The static library: the one that the environment names, else the one that is built for the target.
fn library() -> Result<PathBuf, String> {
    match env::var_os(VARIABLE) {
        Some(path) if !path.is_empty() => named(PathBuf::from(path)),
        _ => target().and_then(built),
    }
}

// How the static library for the target is built.
fn target() -> Result<Maker, String> {
    let part = |name: &str| env::var(name).unwrap_or_default();
    let (machine, system) = (part("CARGO_CFG_TARGET_ARCH"), part("CARGO_CFG_TARGET_OS"));
    match (machine.as_str(), system.as_str()) {
        ("x86_64", "linux") => Ok(X86_64),
        ("aarch64", "linux") => Ok(AARCH64),
        _ => Err(format!("it is made for Linux on x86-64 and aarch64 alone, and this build is for {machine} {system}")),
    }
}

// The static library at the path that the environment names.
fn named(path: PathBuf) -> Result<PathBuf, String> {
    println!("cargo:rerun-if-changed={}", path.display());
    if path.is_file() {
        return Ok(path);
    }
    let place = env::current_dir().unwrap_or_default().join(&path);
    Err(format!(
        "{VARIABLE} is set to {}, and there is no file {}.\n\
         Set it to the full path of a {FILE}, or unset it to build one with `rt`.",
        path.display(),
        place.display()
    ))
}

// The static library that `rt` proves and builds in the project, whose root is two folders up.
fn built(maker: Maker) -> Result<PathBuf, String> {
    let folder = env::current_dir().unwrap_or_default();
    let root = folder.ancestors().nth(2).ok_or("the bindings do not stand in the project")?;
    println!("cargo:rerun-if-env-changed=PATH");
    for source in ["crates.txt", "tools"] {
        println!("cargo:rerun-if-changed={}", root.join(source).display());
    }
    // What `rt` itself writes, each crate's out/, is no source.
    for part in fs::read_dir(root.join("crates")).into_iter().flatten().flatten() {
        for source in ["src", "specs", "proofs"].map(|name| part.path().join(name)) {
            if source.is_dir() {
                println!("cargo:rerun-if-changed={}", source.display());
            }
        }
    }
    Command::new("rt").arg("version").output().map_err(|error| match error.kind() {
        ErrorKind::NotFound => neither(),
        _ => format!("`rt` cannot be run: {error}"),
    })?;
    let command = format!("{} {}", maker.command, maker.words.join(" "));
    let answer = Command::new(maker.command).args(maker.words).current_dir(root.join(maker.place)).output();
    let output = answer.map_err(|error| format!("`{command}` cannot be run: {error}"))?;
    let path = root.join(maker.folder).join(FILE);
    if output.status.success() && path.is_file() {
        return Ok(path);
    }
    Err(format!(
        "`{command}` in {} did not write {} ({}):\n{}{}",
        root.join(maker.place).display(),
        path.display(),
        output.status,
        String::from_utf8_lossy(&output.stdout),
        String::from_utf8_lossy(&output.stderr)
    ))
}

// What to do when no library is named and there is no `rt` to build one.
fn neither() -> String {
    format!(
        "To link it, do one of these:\n\
         - set {VARIABLE} to the full path of a {FILE}, or\n\
         - install the Rattle kit, so that `rt` is on PATH; then the library is built here."
    )
}

// Copies the library to the folder of this build.
fn take(path: &Path, copy: &Path) -> Result<(), String> {
    fs::copy(path, copy).map(drop).map_err(|error| format!("{} cannot be copied: {error}", path.display()))
}
