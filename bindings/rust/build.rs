//! Links `liblock_bench.a`, from the folder that `BENCH_LIB_DIR` names, or from the one in which
//! `./bench build` has put what it built from the repository's sources as they are. What was built from other
//! sources is not linked.

use std::path::{Path, PathBuf};
use std::process::{exit, Command};
use std::{env, fs};

const LIBRARY: &str = "liblock_bench.a";

/// The folder of the library.
fn folder() -> Result<PathBuf, String> {
    println!("cargo:rerun-if-env-changed=BENCH_LIB_DIR");
    if let Some(named) = env::var_os("BENCH_LIB_DIR") {
        return Ok(PathBuf::from(named));
    }
    let root = Path::new(env!("CARGO_MANIFEST_DIR")).join("../..");
    // A changed source asks anew.
    for source in ["crates", "crates.txt"] {
        println!("cargo:rerun-if-changed={}", root.join(source).display());
    }
    let bench = root.join("bench");
    let told = Command::new(&bench).args(["build", "--check"]).output().map_err(|error| {
        format!("{}: {error}; BENCH_LIB_DIR may name a folder with {LIBRARY}", bench.display())
    })?;
    if told.status.success() {
        Ok(PathBuf::from(String::from_utf8_lossy(&told.stdout).trim_end()))
    } else {
        Err(String::from_utf8_lossy(&told.stderr).trim_end().to_string())
    }
}

/// The library says which version it is: one of another version is not linked.
fn checked(folder: PathBuf) -> Result<PathBuf, String> {
    let library = folder.join(LIBRARY);
    println!("cargo:rerun-if-changed={}", library.display());
    let bytes = fs::read(&library).map_err(|error| format!("{}: {error}", library.display()))?;
    let version = concat!("version ", env!("CARGO_PKG_VERSION"), "\nsources ").as_bytes();
    if bytes.windows(version.len()).any(|window| window == version) {
        Ok(folder)
    } else {
        Err(format!("{}: is not of version {}", library.display(), env!("CARGO_PKG_VERSION")))
    }
}

fn main() {
    match folder().and_then(checked) {
        Ok(folder) => {
            println!("cargo:rustc-link-lib=static=lock_bench");
            println!("cargo:rustc-link-search=native={}", folder.display());
        }
        Err(why) => {
            eprintln!("error: {why}");
            exit(1);
        }
    }
}
