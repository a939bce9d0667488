// Finds or makes the archive of the library's C interface, and links it.
// It never skips: where the archive cannot be had, the build fails.

use std::env;
use std::fs::{self, File};
use std::io;
use std::path::{Path, PathBuf};
use std::process::{exit, Command};
use std::time::SystemTime;

const ARCHIVE: &str = "libxc9500.a";
const ARCHIVE_DIR: &str = "XC9500_ARCHIVE_DIR";

fn fail(reason: &str) -> ! {
    eprintln!("no archive of the library to test: {reason}");
    exit(1);
}

/// Runs `tools/staticlib`, which proves what is not proved yet and writes the archive.
fn make_archive(root: &Path) {
    // What it prints is kept from cargo, which would read it as directives.
    let run = Command::new(root.join("tools").join("staticlib")).output();
    match run {
        Ok(run) if run.status.success() => {}
        Ok(run) => fail(&format!(
            "`tools/staticlib` failed, {}; mend that, or name the archive's folder in {ARCHIVE_DIR}\n{}{}",
            run.status,
            String::from_utf8_lossy(&run.stdout),
            String::from_utf8_lossy(&run.stderr),
        )),
        Err(error) => fail(&format!("`tools/staticlib` did not start: {error}")),
    }
}

/// The date of the newest file or folder at or below a path.
fn newest(path: &Path) -> io::Result<SystemTime> {
    let about = fs::symlink_metadata(path)?;
    let mut date = about.modified()?;
    if about.is_dir() {
        for entry in fs::read_dir(path)? {
            date = date.max(newest(&entry?.path())?);
        }
    }
    Ok(date)
}

/// Gives a file the date of the newest of its sources.
fn date_as_newest(made: &Path, sources: &[PathBuf]) -> io::Result<()> {
    let mut date = SystemTime::UNIX_EPOCH;
    for source in sources {
        date = date.max(newest(source)?);
    }
    File::options().append(true).open(made)?.set_modified(date)
}

/// What the archive is made of: the list of crates, and of each crate the folders that are not made by a check.
fn sources(root: &Path) -> io::Result<Vec<PathBuf>> {
    let mut sources = vec![root.join("crates.txt")];
    for entry in fs::read_dir(root.join("crates"))? {
        let entry = entry?.path();
        let folders = ["src", "specs", "proofs"].map(|name| entry.join(name));
        sources.extend(folders.into_iter().filter(|folder| folder.is_dir()));
    }
    Ok(sources)
}

/// Makes the archive in the repository that this package lies in; answers its folder.
fn made_in_repository() -> PathBuf {
    let package = env::var_os("CARGO_MANIFEST_DIR").expect("cargo sets it");
    let Some(root) = Path::new(&package).ancestors().nth(2) else {
        fail("this package does not lie in a repository");
    };
    let sources = sources(root).unwrap_or_else(|error| fail(&format!("its sources: {error}")));
    for source in &sources {
        println!("cargo:rerun-if-changed={}", source.display());
    }
    make_archive(root);
    let folder = root.join("target").join("staticlib");

    // Cargo watches the archive too, and would take what this script has just made for a change.
    // Without the date the only harm is that it is made once more, so a failure is let pass.
    let _ = date_as_newest(&folder.join(ARCHIVE), &sources);
    folder
}

fn main() {
    println!("cargo:rerun-if-changed=build.rs");
    println!("cargo:rerun-if-env-changed={ARCHIVE_DIR}");
    let folder = match env::var_os(ARCHIVE_DIR) {
        Some(named) => PathBuf::from(named),
        None => made_in_repository(),
    };
    // The linker runs in another folder than this script.
    if !folder.is_absolute() {
        fail(&format!("{ARCHIVE_DIR} must be an absolute path"));
    }
    let archive = folder.join(ARCHIVE);
    if !archive.is_file() {
        fail(&format!("{} is missing", archive.display()));
    }
    println!("cargo:rerun-if-changed={}", archive.display());
    println!("cargo:rustc-link-search=native={}", folder.display());
    println!("cargo:rustc-link-lib=static=xc9500");
}
