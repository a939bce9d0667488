// The vector writer as a command: what it writes passes its own check.
// A changed byte, a missing file and bad words are told apart by exit status.

use std::fs;
use std::path::{Path, PathBuf};
use std::process::{Command, Output};
use xc9500_reference::vectors::PROGRAMS;

fn write_vectors(words: &[&str]) -> Output {
    Command::new(env!("CARGO_BIN_EXE_write_vectors"))
        .args(words)
        .output()
        .unwrap()
}

fn empty_folder(name: &str) -> PathBuf {
    let folder = Path::new(env!("CARGO_TARGET_TMPDIR")).join(name);
    let _ = fs::remove_dir_all(&folder);
    fs::create_dir_all(&folder).unwrap();
    folder
}

#[test]
fn what_is_written_passes_the_check() {
    let folder = empty_folder("vectors");
    let dir = folder.to_str().unwrap();
    let files: Vec<PathBuf> = PROGRAMS
        .iter()
        .map(|(program, _)| folder.join(program).join("stdout"))
        .collect();
    let assert_all_refused = || {
        let run = write_vectors(&["--check", dir]);
        let said = String::from_utf8(run.stderr).unwrap();
        assert_eq!(run.status.code(), Some(1), "{said}");
        for file in &files {
            assert!(said.contains(file.to_str().unwrap()), "{said}");
        }
    };

    assert_eq!(write_vectors(&[dir]).status.code(), Some(0));
    assert_eq!(write_vectors(&["--check", dir]).status.code(), Some(0));

    for file in &files {
        let mut damaged = fs::read(file).unwrap();
        *damaged.last_mut().unwrap() ^= 1;
        fs::write(file, damaged).unwrap();
    }
    assert_all_refused();

    for file in &files {
        fs::remove_file(file).unwrap();
    }
    assert_all_refused();
    assert!(files.iter().all(|file| !file.exists()), "a check wrote");
}

#[test]
fn bad_words_are_refused() {
    for words in [&[][..], &["--check"], &["--wrong", "x"], &["a", "b"]] {
        assert_eq!(write_vectors(words).status.code(), Some(2), "{words:?}");
    }
}
