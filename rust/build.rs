//! Finds the static library `libkfifo.a` and links it. It lies beside this crate in a release, `make -C c` of the
//! repository builds it, or it is installed. With the feature `judge` it links `libkfifo_judge.a` from the same folder
//! too.
use std::env;
use std::path::{Path, PathBuf};
use std::process::{Command, exit};

/// The folder that pkg-config names, where the library is installed.
fn installed() -> Option<PathBuf> {
    let output = Command::new("pkg-config")
        .args(["--variable=libdir", "kfifo"])
        .output()
        .ok()?;
    let folder = String::from_utf8(output.stdout).ok()?;
    Some(folder.trim())
        .filter(|it| !it.is_empty())
        .map(PathBuf::from)
}

/// The folder of the repository where `make -C c` puts the library for a processor; for ARM it is `make -C c aarch64`.
fn built_for(processor: &str) -> &'static str {
    match processor {
        "aarch64" => "../c/out/aarch64-linux-gnu",
        _ => "../c/out",
    }
}

/// Links the judge: from the folder that KFIFO_JUDGE_LIB_DIR names, else from that of the queue's library.
fn link_judge(beside: &Path) {
    println!("cargo:rerun-if-env-changed=KFIFO_JUDGE_LIB_DIR");
    let named = env::var_os("KFIFO_JUDGE_LIB_DIR").map(PathBuf::from);
    let folder = named.unwrap_or_else(|| beside.to_path_buf());
    let library = folder.join("libkfifo_judge.a");
    println!("cargo:rerun-if-changed={}", library.display());
    if !library.exists() {
        eprintln!(
            "The feature judge needs libkfifo_judge.a, and {} has none.",
            folder.display()
        );
        eprintln!("Set KFIFO_JUDGE_LIB_DIR to the folder that holds it.");
        exit(1);
    }
    println!("cargo:rustc-link-search=native={}", folder.display());
    println!("cargo:rustc-link-lib=static=kfifo_judge");
}

/// The folder that has the library: the one that KFIFO_LIB_DIR names, or where it names none the first that has it of
/// those where it may be. The error says where it was sought.
fn folder_of_library() -> Result<PathBuf, String> {
    if let Some(named) = env::var_os("KFIFO_LIB_DIR").map(PathBuf::from) {
        if named.join("libkfifo.a").exists() {
            return Ok(named);
        }
        let named = named.display();
        return Err(format!(
            "KFIFO_LIB_DIR is {named}, and that folder has no libkfifo.a."
        ));
    }
    let here = PathBuf::from(env::var_os("CARGO_MANIFEST_DIR").unwrap_or_default());
    let target = env::var("CARGO_CFG_TARGET_ARCH").unwrap_or_default();
    let folders: Vec<_> = [here.join(built_for(&target)), here.join("../../../lib")]
        .into_iter()
        .chain(installed())
        .collect();
    let found = folders.iter().find(|it| it.join("libkfifo.a").exists());
    found.cloned().ok_or_else(|| {
        let sought: Vec<_> = folders.iter().map(|it| it.display().to_string()).collect();
        format!("There is no libkfifo.a in {}.", sought.join(", "))
    })
}

fn main() {
    println!("cargo:rerun-if-env-changed=KFIFO_LIB_DIR");
    let folder = folder_of_library().unwrap_or_else(|why| {
        eprintln!("{why}");
        eprintln!(
            "It lies in the lib/ of a release; in the repository `make -C c` builds it and `make -C c install` \
             installs it, or set KFIFO_LIB_DIR to the folder that holds it."
        );
        exit(1);
    });
    println!(
        "cargo:rerun-if-changed={}",
        folder.join("libkfifo.a").display()
    );
    println!("cargo:rustc-link-search=native={}", folder.display());
    println!("cargo:rustc-link-lib=static=kfifo");
    if env::var_os("CARGO_FEATURE_JUDGE").is_some() {
        link_judge(&folder);
    }
}
