//! The programs' exit status.

use std::process::{Command, Output};

fn differ(arguments: &[&str]) -> Output {
    Command::new(env!("CARGO_BIN_EXE_differ")).args(arguments).output().unwrap()
}

fn text(output: &Output) -> String {
    String::from_utf8_lossy(&output.stdout).into_owned()
}

#[test]
fn too_few_calls_fail_for_what_never_came_up() {
    let output = differ(&["--calls", "50"]);
    assert_eq!(output.status.code(), Some(1));
    assert!(text(&output).contains("this never came up: "));
}

#[test]
fn one_episode_is_repeated() {
    let [first, again] = [0, 0].map(|_| differ(&["--episode", "14"]));
    assert_eq!(first.status.code(), Some(0));
    let calls =
        |output: &Output| text(output).lines().rev().nth(1).map(|line| line[..12].to_string());
    assert_eq!(calls(&first), calls(&again));
    assert!(text(&first).ends_with("no difference\n"));
}

#[test]
fn odd_arguments_are_refused() {
    for arguments in [&["--calls"][..], &["--calls", "many"], &["--what", "1"]] {
        assert_eq!(differ(arguments).status.code(), Some(2));
    }
}

#[test]
fn the_benchmark_runs() {
    let bench = Command::new(env!("CARGO_BIN_EXE_bench"))
        .args(["--frames", "50", "--rounds", "1"])
        .output()
        .unwrap();
    assert_eq!(bench.status.code(), Some(0));
    assert_eq!(text(&bench).lines().filter(|line| line.contains("packets, ")).count(), 8);
}
