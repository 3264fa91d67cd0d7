//! Links the library for C: from the folder that `XET_LIB_DIR` names, else from `bindings/out` of the repository, where
//! `bindings/build.sh` makes it, else from where pkg-config finds it.

use std::env;
use std::path::{Path, PathBuf};
use std::process::{exit, Command};

fn main() {
    for name in ["XET_LIB_DIR", "PKG_CONFIG", "PKG_CONFIG_PATH"] {
        println!("cargo:rerun-if-env-changed={name}");
    }
    // The documentation is built without the library.
    if env::var_os("DOCS_RS").is_some() {
        return;
    }
    let target = env::var("TARGET").expect("cargo sets TARGET");
    if !target.starts_with("x86_64-") || !target.contains("linux") {
        stop(&format!("libxet is built for Linux on x86-64, not for {target}"));
    }
    let folder = by_variable().or_else(in_repository).or_else(by_pkg_config).unwrap_or_else(|| {
        stop(concat!(
            "libxet.a is not there: set XET_LIB_DIR to its folder, or PKG_CONFIG_PATH to that of xet.pc, as a release ",
            "has them; or in the repository run bindings/build.sh"
        ))
    });
    println!("cargo:rustc-link-search=native={}", folder.display());
    // The archive leaves nothing to be found when the program runs.
    let kind = if has(&folder, "libxet.a") { "static" } else { "dylib" };
    println!("cargo:rustc-link-lib={kind}=xet");
}

/// The folder that `XET_LIB_DIR` names, which has to have the library.
fn by_variable() -> Option<PathBuf> {
    let folder = PathBuf::from(env::var_os("XET_LIB_DIR")?);
    if !has(&folder, "libxet.a") && !has(&folder, "libxet.so") {
        stop(&format!("XET_LIB_DIR names {}, where there is no libxet.a and no libxet.so", folder.display()));
    }
    Some(folder)
}

/// The folder of the repository in which `bindings/build.sh` makes the archive, if it is there.
fn in_repository() -> Option<PathBuf> {
    let folder = Path::new(env!("CARGO_MANIFEST_DIR")).join("../out");
    has(&folder, "libxet.a").then_some(folder)
}

/// The folder of an installed library that has all calls of this version, and none that a later one has changed.
fn by_pkg_config() -> Option<PathBuf> {
    let program = env::var_os("PKG_CONFIG").unwrap_or_else(|| "pkg-config".into());
    let (least, first): (_, u64) = (env!("CARGO_PKG_VERSION"), env!("CARGO_PKG_VERSION_MAJOR").parse().ok()?);
    let wanted = [format!("xet >= {least}"), format!("xet < {}", first + 1)];
    let has_version = Command::new(&program).arg("--exists").args(&wanted).status().ok()?;
    let printed = Command::new(&program).args(["--variable=libdir", "xet"]).output().ok()?;
    // A space in the path is escaped there.
    let folder = PathBuf::from(String::from_utf8(printed.stdout).ok()?.trim().replace("\\ ", " "));
    (has_version.success() && printed.status.success() && folder.is_dir()).then_some(folder)
}

/// Whether a folder has a file, whose changes cargo then looks for.
fn has(folder: &Path, name: &str) -> bool {
    let path = folder.join(name);
    if path.is_file() {
        println!("cargo:rerun-if-changed={}", path.display());
    }
    path.is_file()
}

fn stop(why: &str) -> ! {
    eprintln!("xet-shards: {why}");
    exit(1);
}
