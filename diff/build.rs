//! Links the port's library for C, which the environment names.

fn main() {
    println!("cargo:rerun-if-env-changed=XET_ARCHIVE");
    let archive = std::env::var("XET_ARCHIVE").expect("XET_ARCHIVE is not set: run.sh sets it");
    println!("cargo:rerun-if-changed={archive}");
    println!("cargo:rustc-link-arg={archive}");
}
