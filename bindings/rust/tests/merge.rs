//! Tests of examples/merge.rs.

#[allow(dead_code)]
#[path = "../examples/merge.rs"]
mod merge;

use std::fs;
use std::io::ErrorKind;
use std::path::Path;

#[test]
fn new_files() {
    let folder = Path::new(env!("CARGO_TARGET_TMPDIR")).join("merge");
    // A run that failed has left it.
    let _ = fs::remove_dir_all(&folder);
    fs::create_dir(&folder).expect("a new folder");
    let [new, path] = ["out.new", "out"].map(|it| folder.join(it).display().to_string());
    fs::write(&new, "of another run").expect("a file");
    let error = merge::write_as(&new, &path, b"bytes").expect_err("the name is taken");
    assert_eq!(error.kind(), ErrorKind::AlreadyExists);
    assert_eq!(fs::read(&new).expect("it stays"), b"of another run");
    fs::rename(&new, &path).expect("the other run goes on");
    assert!(merge::write_as(&new, &path, b"bytes").is_ok());
    assert_eq!(fs::read(&path).expect("it is replaced"), b"bytes");
    // A folder can't be replaced.
    assert!(merge::write_as(&new, &folder.display().to_string(), b"bytes").is_err());
    assert_eq!(fs::read_dir(&folder).expect("the folder").count(), 1);
}
