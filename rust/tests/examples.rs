//! The examples, as programs.

use std::fs;
use std::path::{Path, PathBuf};
use std::process::{Command, Output};

fn run(example: &str, arguments: &[&str]) -> Output {
    let mut cargo = Command::new(env!("CARGO"));
    cargo.current_dir(env!("CARGO_MANIFEST_DIR"));
    cargo.args(["run", "--quiet", "--offline", "--example", example, "--"]);
    cargo.args(arguments).output().unwrap()
}

/// Returns what an example prints that succeeds.
fn printed(example: &str, arguments: &[&str]) -> String {
    let output = run(example, arguments);
    assert!(output.status.success(), "{output:?}");
    String::from_utf8(output.stdout).unwrap()
}

#[test]
fn messages() {
    assert_eq!(printed("first", &[]), "");
    let expected = "the first message\nthe last message\n";
    assert_eq!(printed("records", &[]), expected);
}

#[test]
fn store() {
    assert_eq!(printed("store", &[]), "");
    let folder = PathBuf::from(env!("CARGO_TARGET_TMPDIR")).join("store");
    let _ = fs::remove_dir_all(&folder);
    fs::create_dir_all(&folder).unwrap();
    let [key, other, file] = ["key", "other", "file"].map(|name| folder.join(name).to_str().unwrap().to_owned());
    fs::write(&key, [1; 32]).unwrap();
    fs::write(&other, [2; 32]).unwrap();
    assert!(!run("store", &[&key, &file]).status.success() && !Path::new(&file).exists());
    assert_eq!(printed("store", &[&key, &file, "b=1"]), "b=1\n");
    assert_eq!(printed("store", &[&key, &file, "a=2"]), "a=2\nb=1\n");
    assert_eq!(printed("store", &[&key, &file, "b="]), "a=2\nb=\n");
    for refused in [[&other[..], &file, "a=3"], [&key, &file, "a"], [&key, &file, "a=\n"]] {
        assert!(!run("store", &refused).status.success());
    }
    assert_eq!(printed("store", &[&key, &file]), "a=2\nb=\n");
}
