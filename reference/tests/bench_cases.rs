// The stored cases of the bench program, held to the one of this package.
// The gate runs them with the bench program of the library.

use std::path::Path;
use std::process::Command;

fn run_with(program: &str) -> (Option<i32>, String) {
    let script = Path::new(env!("CARGO_MANIFEST_DIR")).join("../.ci/bench-cases");
    let run = Command::new(script).arg(program).output().unwrap();
    (run.status.code(), String::from_utf8(run.stdout).unwrap())
}

#[test]
fn this_program_prints_what_the_cases_expect() {
    let (status, said) = run_with(env!("CARGO_BIN_EXE_reference_bench"));
    assert_eq!(status, Some(0), "{said}");
    assert!(said.ends_with(" 0 failed\n"), "{said}");
}

#[test]
fn another_program_fails_the_cases() {
    let (status, said) = run_with(env!("CARGO_BIN_EXE_write_vectors"));
    assert_eq!(status, Some(1), "{said}");
    assert!(said.contains(": 0 passed"), "{said}");
}
