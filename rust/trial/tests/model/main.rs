//! `plain` against the Python model `tests/model.py`, which plays the script `tests/vectors.txt` on the spot. The
//! library plays it in tests/vectors_test.py; random calls on the library and on the model are
//! python/test_scowdeck.py's, and random calls on the library and on `plain` are `differ`'s.

mod player;

use player::Script;
use std::io::Write;
use std::path::{Path, PathBuf};
use std::process::{Command, Stdio};
use trial::boundary::{Boundary, Plain};

fn repository(name: &str) -> PathBuf {
    Path::new(env!("CARGO_MANIFEST_DIR")).join("../..").join(name)
}

fn text(name: &str) -> String {
    let path = repository(name);
    std::fs::read_to_string(&path).unwrap_or_else(|error| panic!("{}: {error}", path.display()))
}

/// Plays the script line by line; gives how many lines were compared.
fn follow(with: &dyn Boundary, script: &str, expected: &str) -> usize {
    assert_eq!(script.lines().count(), expected.lines().count());
    let mut player = Script::new(with);
    let mut compared = 0;
    for (number, (line, wanted)) in script.lines().zip(expected.lines()).enumerate() {
        if line.starts_with('#') {
            continue;
        }
        if let Some(found) = player.line(line) {
            assert_eq!(found, wanted, "line {}: {line}", number + 1);
            compared += 1;
        }
    }
    compared
}

/// What the model prints of a script.
fn model(script: &str) -> String {
    let mut child = Command::new("python3")
        .arg(repository("tests/model.py"))
        .stdin(Stdio::piped())
        .stdout(Stdio::piped())
        .spawn()
        .expect("python3 is needed for the model");
    let mut stdin = child.stdin.take().unwrap();
    let octets = script.as_bytes().to_vec();
    let feeder = std::thread::spawn(move || stdin.write_all(&octets));
    let output = child.wait_with_output().unwrap();
    feeder.join().unwrap().unwrap();
    assert!(output.status.success());
    String::from_utf8(output.stdout).unwrap()
}

#[test]
fn the_vectors() {
    let script = text("tests/vectors.txt");
    let expected = model(&script);
    let compared = follow(&Plain, &script, &expected);
    assert!(compared >= 550, "only {compared} lines compared");
}
