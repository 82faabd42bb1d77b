//! The folders of `reports/`: what is stored is what the second implementation reads and prints.

use std::fs;
use std::path::Path;
use wigneld_tests::folders::files;

fn stored() -> Vec<(String, Vec<u8>)> {
    let root = Path::new(env!("CARGO_MANIFEST_DIR")).join("reports");
    let mut found = Vec::new();
    for folder in fs::read_dir(&root).expect("tests/reports") {
        let folder = folder.expect("a folder");
        let name = folder.file_name().into_string().expect("plain name");
        for file in fs::read_dir(folder.path()).expect("only folders") {
            let file = file.expect("a file");
            let path = format!("{name}/{}", file.file_name().into_string().expect("plain name"));
            found.push((path, fs::read(file.path()).expect("readable")));
        }
    }
    found.sort();
    found
}

#[test]
fn stored_reports_are_the_second_implementations() {
    let (stored, made) = (stored(), files());
    let paths = |all: &[(String, Vec<u8>)]| -> Vec<String> {
        all.iter().map(|(path, _)| path.clone()).collect()
    };
    assert_eq!(paths(&stored), paths(&made));
    for ((path, bytes), (_, wanted)) in stored.iter().zip(&made) {
        assert!(bytes == wanted, "{path} isn't what `cargo run --example reports` writes");
    }
}
