//! What the build does with and without an archive.

use std::path::Path;
use std::process::Command;

#[allow(dead_code)]
#[path = "../build.rs"]
mod build;

#[test]
fn the_archive_is_that_of_the_target() {
    let package = Path::new("project/bindings/rust");
    let of = |machine| build::folder(None, package, "x86_64-unknown-linux-gnu", machine);
    assert_eq!(of("x86_64"), package.join("../../target/lib"));
    assert_eq!(of("aarch64"), package.join("../../target/lib/aarch64"));
    for machine in ["x86_64", "aarch64"] {
        let named = build::folder(Some("elsewhere".into()), package, "x86_64-unknown-linux-gnu", machine);
        assert_eq!(named, Path::new("elsewhere"));
    }
}

/// `check` and `doc` pass where there is no archive and say what is to be done; `build` does not pass.
#[test]
fn without_an_archive_the_crate_is_checked_and_documented() {
    let work = Path::new(env!("CARGO_TARGET_TMPDIR"));
    let empty = work.join("no-archive");
    std::fs::create_dir_all(&empty).unwrap();
    for (verb, passes) in [("check", true), ("doc", true), ("build", false)] {
        let told = Command::new(env!("CARGO"))
            .args([verb, "--offline", "--locked", "--manifest-path"])
            .arg(Path::new(env!("CARGO_MANIFEST_DIR")).join("Cargo.toml"))
            .arg("--target-dir")
            .arg(work.join("cargo"))
            .env("NTSKE_LIB", &empty)
            .output()
            .unwrap();
        let said = String::from_utf8_lossy(&told.stderr);
        assert_eq!(told.status.success(), passes, "cargo {verb}: {said}");
        let missing = format!("there is no {}", empty.join("libntske.a").display());
        let line = said.lines().find(|line| line.contains(&missing));
        assert!(
            line.is_some_and(|line| line.contains("./archive") && line.contains("NTSKE_LIB")),
            "cargo {verb}: {said}"
        );
    }
}
