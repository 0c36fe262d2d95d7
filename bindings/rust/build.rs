//! Finds libexports.a, the proved library: in the folder CITATIONS_LIB_DIR where that is set, else in the repository's target/staticlib.

use std::env;
use std::path::{Path, PathBuf};

fn main() {
    println!("cargo:rerun-if-env-changed=CITATIONS_LIB_DIR");
    println!("cargo:rerun-if-changed=build.rs");
    let of_target = |what: &str| env::var(format!("CARGO_CFG_TARGET_{what}")).unwrap_or_default();
    if of_target("ARCH") != "x86_64" || of_target("OS") != "linux" {
        stop(&[
            &format!("the proved library is for x86-64 Linux alone, and the target is {}", env::var("TARGET").unwrap_or_default()),
            "the kit that compiles it, Rattle, has no other target; build with --target x86_64-unknown-linux-gnu.",
        ]);
    }
    let folder = match env::var_os("CITATIONS_LIB_DIR") {
        Some(folder) => from_start(Path::new(&folder)),
        None => PathBuf::from(env::var_os("CARGO_MANIFEST_DIR").unwrap()).join("../../target/staticlib"),
    };
    let archive = folder.join("libexports.a");
    println!("cargo:rerun-if-changed={}", archive.display());
    let Ok(folder) = folder.canonicalize() else { missing(&archive) };
    if !archive.is_file() {
        missing(&archive);
    }
    println!("cargo:rustc-link-search=native={}", folder.display());
    println!("cargo:rustc-link-lib=static=exports");
}

// A relative path is seen from the folder in which cargo was started, which the shell names in PWD; this script runs in the package's.
fn from_start(folder: &Path) -> PathBuf {
    if folder.is_absolute() {
        return folder.to_path_buf();
    }
    println!("cargo:rerun-if-env-changed=PWD");
    env::var_os("PWD").map_or_else(PathBuf::new, PathBuf::from).join(folder)
}

fn missing(archive: &Path) -> ! {
    stop(&[
        &format!("the proved library is missing: no file {}", archive.display()),
        "write it with `tests/library` in the repository's root,",
        "or set CITATIONS_LIB_DIR to the folder that holds libexports.a.",
    ])
}

fn stop(lines: &[&str]) -> ! {
    for line in lines {
        eprintln!("citations: {line}");
    }
    std::process::exit(1)
}
