//! Programs of their own that check queues.
use crate::{OVERTAKING, turn, usual_time};
use std::path::Path;
use std::process::{Command, Output};
use std::{env, fs};

/// Runs tests/crossbeam, a program of its own over Debian's crates.
#[test]
fn the_queues_of_crossbeam_pass() {
    let _turn = turn();
    let registry = Path::new("/usr/share/cargo/registry");
    let entries = fs::read_dir(registry).into_iter().flatten().flatten();
    let mut names = entries.map(|entry| entry.file_name().to_string_lossy().into_owned());
    if !names.any(|name| name.starts_with("crossbeam-queue-")) {
        println!("skipped: librust-crossbeam-queue-dev is not installed");
        return;
    }
    let status = Command::new(env!("CARGO"))
        .args(["run", "--quiet", "--release", "--offline", "-j1"])
        .args(["--config", r#"source.crates-io.replace-with="debian""#])
        .args([
            "--config",
            r#"source.debian.directory="/usr/share/cargo/registry""#,
        ])
        .arg("--manifest-path")
        .arg(Path::new(env!("CARGO_MANIFEST_DIR")).join("tests/crossbeam/Cargo.toml"))
        .arg("--")
        .arg(usual_time().to_string())
        .env(
            "CARGO_TARGET_DIR",
            Path::new(env!("CARGO_TARGET_TMPDIR")).join("crossbeam"),
        )
        .status()
        .expect("cargo runs");
    assert!(status.success());
}

/// Runs examples/check_queue.rs, which the page on the check shows.
fn run_example(word: &str) -> Output {
    Command::new(env!("CARGO"))
        .args(["run", "--quiet", "--offline", "-j1", "--features", "judge"])
        .args(["--example", "check_queue", "--", word])
        .current_dir(env!("CARGO_MANIFEST_DIR"))
        .env(
            "CARGO_TARGET_DIR",
            Path::new(env!("CARGO_TARGET_TMPDIR")).join("example"),
        )
        .output()
        .expect("cargo runs")
}

#[test]
fn the_example_passes_and_a_stack_fails() {
    let _turn = turn();
    let right = run_example("right");
    assert!(right.status.success(), "{right:?}");
    assert!(
        String::from_utf8_lossy(&right.stdout).contains("no fault found"),
        "{right:?}"
    );
    let wrong = run_example("broken");
    assert!(!wrong.status.success(), "{wrong:?}");
    let text = String::from_utf8_lossy(&wrong.stderr);
    assert!(OVERTAKING.iter().all(|part| text.contains(part)), "{text}");
}
