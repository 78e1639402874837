//! What the build script says and does, in small repositories of its own.

use std::fs;
use std::os::unix::fs::PermissionsExt;
use std::path::{Path, PathBuf};
use std::process::{Command, Output};
use std::sync::Once;

/// The build script, compiled once.
fn script() -> PathBuf {
    static COMPILED: Once = Once::new();
    let folder = Path::new(env!("CARGO_TARGET_TMPDIR")).join("build_script");
    let script = folder.join("build");
    COMPILED.call_once(|| {
        fs::create_dir_all(&folder).unwrap();
        let rustc = std::env::var_os("RUSTC").unwrap_or("rustc".into());
        let source = Path::new(env!("CARGO_MANIFEST_DIR")).join("build.rs");
        let compiled = Command::new(rustc).args(["--edition=2021", "-o"]).arg(&script).arg(source).status();
        assert!(compiled.unwrap().success());
    });
    script
}

/// A repository with one source and no archive, in a folder that goes with it. It stands outside of this repository, where
/// `rt ci` refuses sources and a crates.txt in any place but their own.
struct Repository {
    root: PathBuf,
}

impl Drop for Repository {
    fn drop(&mut self) {
        let _ = fs::remove_dir_all(&self.root);
    }
}

impl Repository {
    fn new(name: &str) -> Repository {
        let root = std::env::temp_dir().join(format!("deruvain-{}-{name}", std::process::id()));
        let _ = fs::remove_dir_all(&root);
        for folder in ["crates/deruvain/src", "bindings/rust", "out", "path"] {
            fs::create_dir_all(root.join(folder)).unwrap();
        }
        fs::write(root.join("crates.txt"), "deruvain staticlib:\n").unwrap();
        fs::write(root.join("crates/deruvain/src/lib.rt"), "").unwrap();
        Repository { root }
    }

    /// Puts a command `rt` on the path.
    fn with_rt(self, body: &str) -> Repository {
        let rt = self.root.join("path/rt");
        fs::write(&rt, format!("#!/bin/sh\n{body}\n")).unwrap();
        fs::set_permissions(rt, fs::Permissions::from_mode(0o755)).unwrap();
        self
    }

    /// Runs the script, away from any terminal.
    fn run(&self, archive: Option<&str>) -> Output {
        let mut run = Command::new("/usr/bin/setsid");
        run.arg("--wait").arg(script()).env_clear();
        run.env("PATH", self.root.join("path")).env("OUT_DIR", self.root.join("out"));
        run.env("CARGO_MANIFEST_DIR", self.root.join("bindings/rust"));
        if let Some(archive) = archive {
            run.env("DERUVAIN_ARCHIVE", archive);
        }
        run.output().unwrap()
    }

    /// What the script says as it fails.
    fn failure(&self, archive: Option<&str>) -> String {
        let output = self.run(archive);
        assert_eq!(output.status.code(), Some(1));
        String::from_utf8(output.stderr).unwrap()
    }

    /// What the script tells cargo, and the archive that it links.
    fn success(&self, archive: Option<&str>) -> (String, String) {
        let output = self.run(archive);
        assert!(output.status.success(), "{}", String::from_utf8_lossy(&output.stderr));
        (String::from_utf8(output.stdout).unwrap(), fs::read_to_string(self.root.join("out/libderuvain.a")).unwrap())
    }
}

const MAKES: &str = "[ \"$*\" = lib ] && [ \"${PWD##*/crates/}\" = deruvain ] || exit 2
/bin/mkdir -p out && echo made >out/libderuvain.a
echo 'so far: 6 of 24 functions checked'";

#[test]
fn without_rt_the_kit_is_named() {
    let said = Repository::new("no_rt").failure(None);
    assert!(said
        .starts_with("deruvain: crates/deruvain/out/libderuvain.a is missing, and the command `rt` of the Rattle kit"));
    assert!(said.contains("DERUVAIN_ARCHIVE"));
    assert_eq!(said.lines().count(), 1);
}

#[test]
fn a_missing_archive_is_made() {
    let (told, linked) = Repository::new("missing").with_rt(MAKES).success(None);
    assert!(told.contains("cargo:warning=crates/deruvain/out/libderuvain.a is missing: `rt lib` proved and made it"));
    assert!(told.contains("cargo:rustc-link-lib=static=deruvain\n"));
    assert_eq!(linked, "made\n");
}

#[test]
fn an_old_archive_is_made_again_and_a_new_one_is_not() {
    let repository = Repository::new("old").with_rt(MAKES);
    repository.success(None);
    assert!(!repository.success(None).0.contains("cargo:warning"));
    let touched = |path: &str| {
        fs::create_dir_all(repository.root.join(path).parent().unwrap()).unwrap();
        std::thread::sleep(std::time::Duration::from_millis(20));
        fs::write(repository.root.join(path), "").unwrap();
        repository.success(None).0.contains("libderuvain.a is older than its sources")
    };
    assert!(touched("crates/deruvain/src/lib.rt"));
    assert!(touched("crates/deruvain/proofs/class/Answers.antt"));
    assert!(touched("crates/cube/specs/Bits.antt"));
    assert!(touched("crates.txt"));
    assert!(!touched("crates/deruvain/must-fail/mask.edit"));
    assert!(!touched("crates/deruvain/out/incremental/kept"));
}

#[test]
fn rt_that_fails_is_heard() {
    let said = Repository::new("fails").with_rt("echo 'a.rt:1: no'; echo 'rt: it broke' >&2; exit 1").failure(None);
    assert_eq!(said, "deruvain: `rt lib` in crates/deruvain failed; it said at the end:\na.rt:1: no\nrt: it broke\n");
}

#[test]
fn a_prebuilt_archive_is_taken() {
    let repository = Repository::new("prebuilt");
    let archive = repository.root.join("other name.a");
    fs::write(&archive, "prebuilt\n").unwrap();
    let (told, linked) = repository.success(archive.to_str());
    assert!(told.contains("cargo:rerun-if-env-changed=DERUVAIN_ARCHIVE\n"));
    assert_eq!(linked, "prebuilt\n");
    assert!(repository
        .failure(Some("/no/such.a"))
        .contains("DERUVAIN_ARCHIVE is /no/such.a, and there is no such file"));
    assert!(repository.failure(Some("such.a")).contains("has to be a path that starts at /"));
}

#[test]
fn outside_of_the_repository_an_archive_is_asked_for() {
    let mut run = Command::new(script());
    let output = run.env_remove("DERUVAIN_ARCHIVE").env("CARGO_MANIFEST_DIR", "/").output().unwrap();
    assert_eq!(output.status.code(), Some(1));
    assert!(String::from_utf8_lossy(&output.stderr).contains("outside of Deruvain's repository"));
}
