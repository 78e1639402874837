//! Links the proved archive.
//!
//! That is the one that DERUVAIN_ARCHIVE names, or else crates/deruvain/out/libderuvain.a of this repository, which `rt`
//! proves and makes if it is missing or older than a source.

use std::fs::{self, File, OpenOptions};
use std::io::{BufRead, BufReader, ErrorKind, Write};
use std::path::{Path, PathBuf};
use std::process::{exit, Child, Command, Stdio};
use std::time::SystemTime;

const PREBUILT: &str = "DERUVAIN_ARCHIVE";

/// The archive that `rt lib` makes in the folder of the crate `deruvain`.
const MADE: &str = "crates/deruvain/out/libderuvain.a";

fn main() {
    println!("cargo:rerun-if-env-changed={PREBUILT}");
    let archive = match std::env::var_os(PREBUILT) {
        Some(path) => prebuilt(path.into()),
        None => made_here(),
    };
    println!("cargo:rerun-if-changed={}", archive.display());
    let folder = out_folder();
    if let Err(error) = fs::copy(&archive, folder.join("libderuvain.a")) {
        fail(&format!("{} can't be read: {error}", archive.display()));
    }
    println!("cargo:rustc-link-search=native={}", folder.display());
    println!("cargo:rustc-link-lib=static=deruvain");
}

/// Where this build may write.
fn out_folder() -> PathBuf {
    std::env::var_os("OUT_DIR").expect("cargo sets OUT_DIR").into()
}

/// Ends the build with a message, without the noise of a panic.
fn fail(message: &str) -> ! {
    eprintln!("deruvain: {message}");
    exit(1)
}

/// The archive that the environment names.
fn prebuilt(path: PathBuf) -> PathBuf {
    if !path.is_absolute() {
        fail(&format!("{PREBUILT} is {}, and has to be a path that starts at /", path.display()));
    }
    if !path.is_file() {
        fail(&format!("{PREBUILT} is {}, and there is no such file", path.display()));
    }
    path
}

/// The archive of this repository, made if it is missing or old.
fn made_here() -> PathBuf {
    let root = repository_root();
    let archive = root.join(MADE);
    let sources = sources(&root);
    for source in &sources {
        println!("cargo:rerun-if-changed={}", source.display());
    }
    match archive.metadata().and_then(|archive| archive.modified()) {
        Err(_) => make(&root, "is missing"),
        Ok(made) if newest(&sources) > Some(made) => make(&root, "is older than its sources"),
        Ok(_) => {}
    }
    archive
}

/// What the archive is made from: of each crate what `rt` reads, and not what it makes there, nor the wrong versions for the gate.
fn sources(root: &Path) -> Vec<PathBuf> {
    let crates = match root.join("crates").read_dir() {
        Ok(crates) => crates.filter_map(|entry| Some(entry.ok()?.path())),
        Err(error) => fail(&format!("{}/crates can't be read: {error}", root.display())),
    };
    let parts = crates.flat_map(|folder| ["src", "specs", "proofs"].map(|part| folder.join(part)));
    parts.filter(|part| part.is_dir()).chain([root.join("crates.txt")]).collect()
}

/// The nearest folder above this crate that has a file crates.txt.
fn repository_root() -> PathBuf {
    let here = PathBuf::from(std::env::var_os("CARGO_MANIFEST_DIR").expect("cargo sets CARGO_MANIFEST_DIR"));
    match here.ancestors().find(|folder| folder.join("crates.txt").is_file()) {
        Some(root) => root.to_path_buf(),
        None => fail(&format!(
            "this crate is outside of Deruvain's repository, so the library can't be proved here. \
             Set {PREBUILT} to the path of a libderuvain.a that was made there"
        )),
    }
}

/// When a file was last changed in any of these files and folders.
fn newest(paths: &[PathBuf]) -> Option<SystemTime> {
    paths.iter().filter_map(|path| newest_in(path)).max()
}

fn newest_in(path: &Path) -> Option<SystemTime> {
    if !path.is_dir() {
        return path.metadata().and_then(|file| file.modified()).ok();
    }
    let inside: Vec<PathBuf> = path.read_dir().ok()?.filter_map(|entry| Some(entry.ok()?.path())).collect();
    newest(&inside)
}

/// Has `rt` prove the library and write the archive. Cargo holds back what a build says until it ends, so what is done
/// meanwhile is told to the terminal itself, if there is one.
fn make(root: &Path, why: &str) {
    let mut terminal = OpenOptions::new().write(true).open("/dev/tty").ok();
    let about = "proving the library, about three minutes from nothing";
    tell(&mut terminal, &format!("{MADE} {why}: {about}"));
    let errors = out_folder().join("rt.errors");
    let mut rt = start_rt(root, why, &errors);
    let mut progress = Vec::new();
    for line in BufReader::new(rt.stdout.take().expect("it is piped")).lines().map_while(Result::ok) {
        if line.starts_with("rt: ") || line.starts_with("so far: ") || line.starts_with("logic=") {
            tell(&mut terminal, &line);
        }
        progress.push(line);
    }
    if !rt.wait().map_or(false, |status| status.success()) {
        let errors = fs::read_to_string(errors).unwrap_or_default();
        let said: Vec<&str> = progress.iter().map(String::as_str).chain(errors.lines()).collect();
        let last = said.len().saturating_sub(30);
        fail(&format!("`rt lib` in crates/deruvain failed; it said at the end:\n{}", said[last..].join("\n")));
    }
    println!("cargo:warning={MADE} {why}: `rt lib` proved and made it");
}

/// Starts `rt`, with its errors into a file, and its progress and verdict to be read here.
fn start_rt(root: &Path, why: &str, errors: &Path) -> Child {
    let kept = File::create(errors).map_or_else(|_| Stdio::null(), Stdio::from);
    let mut rt = Command::new("rt");
    rt.arg("lib").current_dir(root.join("crates").join("deruvain")).stdout(Stdio::piped()).stderr(kept);
    match rt.spawn() {
        Ok(rt) => rt,
        Err(error) if error.kind() == ErrorKind::NotFound => fail(&format!(
            "{MADE} {why}, and the command `rt` of the Rattle kit, which proves and makes it, \
             isn't on the PATH. Put the kit on the PATH, or set {PREBUILT} to the path of an archive made elsewhere"
        )),
        Err(error) => fail(&format!("`rt` of the Rattle kit did not start: {error}")),
    }
}

/// Writes a line to the terminal, over cargo's line of progress.
fn tell(terminal: &mut Option<File>, line: &str) {
    if let Some(terminal) = terminal {
        let _ = writeln!(terminal, "\r\x1b[Kderuvain: {line}");
    }
}
