//! Links the archive of the library: the one that `LORIKVAR_ARCHIVE` names, else what `rt lib` makes in crates/abi
//! of the repository that this crate stands in.

use std::env;
use std::fs;
use std::path::{Path, PathBuf};
use std::process::{exit, Command};

const NAME: &str = "lorikvar_abi";

fn main() {
    println!("cargo:rerun-if-env-changed=LORIKVAR_ARCHIVE");
    let target = (
        variable("CARGO_CFG_TARGET_ARCH"),
        variable("CARGO_CFG_TARGET_OS"),
    );
    if target != ("x86_64".to_string(), "linux".to_string()) {
        let (arch, os) = target;
        let fate = "this crate can be checked and documented, not linked";
        println!("cargo:warning=the library is for x86-64 Linux: for {arch} {os} {fate}");
        return;
    }
    if let Err(message) = archive().and_then(|path| link(&path)) {
        eprintln!("lorikvar: {message}");
        exit(1);
    }
}

fn variable(name: &str) -> String {
    env::var(name).unwrap_or_default()
}

fn archive() -> Result<PathBuf, String> {
    match env::var_os("LORIKVAR_ARCHIVE") {
        Some(path) => given(PathBuf::from(path)),
        None => made(),
    }
}

fn given(path: PathBuf) -> Result<PathBuf, String> {
    if path.is_file() {
        return Ok(path);
    }
    Err(format!(
        "LORIKVAR_ARCHIVE names {}, and there is no such file",
        path.display()
    ))
}

/// The archive is proved before it is made, so this may take as long as a check of the whole repository.
fn made() -> Result<PathBuf, String> {
    let root = Path::new(&variable("CARGO_MANIFEST_DIR")).join("..");
    for source in ["crates", "crates.txt"] {
        println!("cargo:rerun-if-changed={}", root.join(source).display());
    }
    let ways = "set LORIKVAR_ARCHIVE to the archive, or build in the repository with the kit's `rt` on the PATH";
    let run = Command::new("rt")
        .arg("lib")
        .current_dir(root.join("crates/abi"))
        .output();
    let output = run.map_err(|error| format!("cannot run `rt lib`: {error}; {ways}"))?;
    if output.status.success() {
        return given(root.join("crates/abi/out/libabi.a"));
    }
    let said = String::from_utf8_lossy(&output.stdout).into_owned()
        + &String::from_utf8_lossy(&output.stderr);
    Err(format!(
        "`rt lib` failed; {ways}. It said:\n{said}"
    ))
}

/// A copy with a name that the linker can look for, whatever the archive is called.
fn link(path: &Path) -> Result<(), String> {
    println!("cargo:rerun-if-changed={}", path.display());
    let folder = PathBuf::from(variable("OUT_DIR"));
    fs::copy(path, folder.join(format!("lib{NAME}.a")))
        .map_err(|error| format!("cannot copy {}: {error}", path.display()))?;
    println!("cargo:rustc-link-search=native={}", folder.display());
    println!("cargo:rustc-link-lib=static={NAME}");
    Ok(())
}
