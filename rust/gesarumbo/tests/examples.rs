//! Every example is run, and prints what stands beside it.

use std::path::{Path, PathBuf};
use std::process::Command;
use std::{env, fs};

/// The examples' names, in order.
fn names() -> Vec<String> {
    let folder = Path::new(env!("CARGO_MANIFEST_DIR")).join("examples");
    let files = fs::read_dir(folder).expect("there is a folder of examples");
    let sources = files
        .map(|file| file.expect("it can be listed").path())
        .filter(|path| path.extension().is_some_and(|end| end == "rs"));
    let mut names: Vec<String> = sources
        .map(|path| {
            path.with_extension("")
                .file_name()
                .unwrap_or_default()
                .to_owned()
        })
        .map(|name| name.into_string().expect("its name is plain"))
        .collect();
    names.sort();
    names
}

/// Where `cargo test` has built an example: beside the folder that this test is in.
fn program(name: &str) -> PathBuf {
    let test = env::current_exe().expect("this test is a file");
    let built = test.parent().and_then(Path::parent).expect("it is built");
    built.join("examples").join(name)
}

#[test]
fn every_example_prints_what_is_expected() {
    let names = names();
    assert_eq!(names.len(), 6, "{names:?}");
    for name in names {
        let written =
            Path::new(env!("CARGO_MANIFEST_DIR")).join(format!("examples/{name}.expected"));
        let expected = fs::read_to_string(written).expect("what it prints stands beside it");
        let ran = Command::new(program(&name))
            .output()
            .expect("it is built with the tests");
        assert!(
            ran.status.success(),
            "{name}: {}",
            String::from_utf8_lossy(&ran.stderr)
        );
        assert_eq!(String::from_utf8_lossy(&ran.stdout), expected, "{name}");
    }
}
