// Stores what each vectors program must print in DIR/PROGRAM/stdout, or checks the stored files.
// Exit status: 0 all is as the reference says; 1 a file differs or cannot be used; 2 bad usage.

use std::fs;
use std::io;
use std::path::Path;
use std::process::ExitCode;
use std::thread;
use xc9500_reference::vectors::PROGRAMS;

/// What is done with a file and what it must hold.
type Act = fn(&Path, &[u8]) -> io::Result<()>;

fn write(file: &Path, expected: &[u8]) -> io::Result<()> {
    if let Some(folder) = file.parent() {
        fs::create_dir_all(folder)?;
    }
    fs::write(file, expected)
}

fn check(file: &Path, expected: &[u8]) -> io::Result<()> {
    if fs::read(file)? == expected {
        Ok(())
    } else {
        Err(io::Error::other("differs from what the reference makes"))
    }
}

fn main() -> ExitCode {
    let words: Vec<String> = std::env::args().skip(1).collect();
    let words: Vec<&str> = words.iter().map(String::as_str).collect();
    let (act, folder) = match words[..] {
        ["--check", folder] => (check as Act, folder),
        [folder] if !folder.starts_with('-') => (write as Act, folder),
        _ => {
            eprintln!("usage: write_vectors [--check] DIR");
            return ExitCode::from(2);
        }
    };
    // The programs have nothing in common, so each is worked out by a thread of its own.
    let failed = thread::scope(|scope| {
        let threads: Vec<_> = PROGRAMS
            .iter()
            .map(|(program, prints)| {
                let file = Path::new(folder).join(program).join("stdout");
                scope.spawn(move || {
                    act(&file, prints().as_bytes())
                        .map_err(|error| eprintln!("{}: {error}", file.display()))
                        .is_err()
                })
            })
            .collect();
        // Every thread is waited for, also after one has failed.
        let failed: Vec<bool> = threads
            .into_iter()
            .map(|thread| thread.join().unwrap_or(true))
            .collect();
        failed.contains(&true)
    });
    if failed {
        ExitCode::FAILURE
    } else {
        ExitCode::SUCCESS
    }
}
