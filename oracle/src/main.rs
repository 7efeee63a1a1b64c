//! `oracle replay IMAGE PINS OUT`: reads an image and a pin file, runs, writes
//! the image after, and prints one line.
//! `oracle sample FOLDER`: writes the stored samples below a folder.
//! `oracle expect NAME`: prints what the test program NAME is to write.

use std::ffi::OsString;
use std::fs::{self, File, OpenOptions};
use std::io::{self, Read, Write};
use std::path::{Path, PathBuf};
use std::process::ExitCode;

use oracle::{Answer, IMAGE_SIZE, MEMORY_SIZE};

/// The most records that are taken from a pin file.
const MAX_RECORDS: usize = 16383;
/// The stop address where the pin file has no first word: odd, so never met.
const NO_STOP: u16 = 1;

fn main() -> ExitCode {
    let arguments: Vec<OsString> = std::env::args_os().skip(1).collect();
    let words: Vec<&str> = arguments.iter().map(|word| word.to_str().unwrap_or("")).collect();
    match (words.as_slice(), arguments.as_slice()) {
        (["replay", ..], [_, image, pins, out]) => {
            match replay(image.as_ref(), pins.as_ref(), out.as_ref()) {
                Ok(answer) => print(&format!("{}\n", line(&answer))),
                Err(message) => failure(&message),
            }
        }
        (["sample", ..], [_, folder]) => match write_samples(folder.as_ref()) {
            Ok(()) => ExitCode::SUCCESS,
            Err(message) => failure(&message),
        },
        (["expect", name], _) => match oracle::expect::expect(name) {
            Some(text) => print(&text),
            None => usage(),
        },
        _ => usage(),
    }
}

fn print(text: &str) -> ExitCode {
    match io::stdout().write_all(text.as_bytes()) {
        Ok(()) => ExitCode::SUCCESS,
        Err(error) => failure(&format!("standard output: {error}")),
    }
}

fn usage() -> ExitCode {
    eprintln!(
        "usage: oracle replay IMAGE PINS OUT\n       oracle sample FOLDER\n       oracle expect NAME"
    );
    ExitCode::from(2)
}

fn failure(message: &str) -> ExitCode {
    eprintln!("oracle: {message}");
    ExitCode::FAILURE
}

/// The answer of the run, or of the refused call. An error names its file.
fn replay(image_path: &Path, pins_path: &Path, out_path: &Path) -> Result<Answer, String> {
    // One byte more than an image is enough to see that a file is too long.
    let mut image = read_up_to(image_path, IMAGE_SIZE + 1)?;
    let pins = read_up_to(pins_path, 4 * (1 + MAX_RECORDS))?;

    let mut memory = vec![0; MEMORY_SIZE];
    let start = oracle::read_image(&image, &mut memory);
    if start.number != Answer::ACCEPTED {
        return Ok(start);
    }

    let words: Vec<u32> = pins
        .chunks_exact(4)
        .map(|bytes| u32::from_be_bytes([bytes[0], bytes[1], bytes[2], bytes[3]]))
        .collect();
    let (stop, records) = match words.split_first() {
        Some((&first, records)) => (first as u16, records),
        None => (NO_STOP, &[][..]),
    };
    let end = oracle::run(&mut memory, start.state, records, records.len(), stop);
    if end.number != Answer::ACCEPTED {
        return Ok(end);
    }

    let written = oracle::write_image(end.state, &memory, &mut image);
    if written.number != Answer::ACCEPTED {
        return Ok(written);
    }
    replace_file(out_path, &image).map_err(|error| format!("{}: {error}", out_path.display()))?;
    Ok(end)
}

fn write_samples(folder: &Path) -> Result<(), String> {
    for (name, bytes) in oracle::sample::samples() {
        let path = folder.join(name);
        let parent = path.parent().unwrap_or(folder);
        fs::create_dir_all(parent)
            .and_then(|()| fs::write(&path, bytes))
            .map_err(|error| format!("{}: {error}", path.display()))?;
    }
    Ok(())
}

fn line(answer: &Answer) -> String {
    format!(
        "answer {} steps {} unassigned {} pc {:04X} wp {:04X} st {:04X} {}",
        answer.number,
        answer.steps,
        answer.unassigned,
        answer.state.pc,
        answer.state.wp,
        answer.state.st,
        answer.last.name()
    )
}

/// The file's first `limit` bytes, or all of it where it is shorter.
fn read_up_to(path: &Path, limit: usize) -> Result<Vec<u8>, String> {
    let mut bytes = Vec::new();
    File::open(path)
        .and_then(|file| file.take(limit as u64).read_to_end(&mut bytes))
        .map_err(|error| format!("{}: {error}", path.display()))?;
    Ok(bytes)
}

/// Puts `bytes` in the file's place at once; on an error it stays as it was.
fn replace_file(path: &Path, bytes: &[u8]) -> io::Result<()> {
    // A device or a directory is not to be replaced by a file.
    if fs::metadata(path).is_ok_and(|found| !found.is_file()) {
        return Err(io::Error::other("not a regular file"));
    }
    let (temporary, mut file) = create_temporary(path)?;
    let result = file
        .write_all(bytes)
        .and_then(|()| file.sync_all())
        .and_then(|()| fs::rename(&temporary, path));
    if result.is_err() {
        let _ = fs::remove_file(&temporary);
    }
    result
}

/// A new file beside `path`.
fn create_temporary(path: &Path) -> io::Result<(PathBuf, File)> {
    let mut attempt = 0;
    loop {
        let temporary = path.with_file_name(format!(".oracle.{}.{attempt}.tmp", std::process::id()));
        match OpenOptions::new().write(true).create_new(true).open(&temporary) {
            Ok(file) => return Ok((temporary, file)),
            Err(error) if error.kind() == io::ErrorKind::AlreadyExists && attempt < 100 => attempt += 1,
            Err(error) => return Err(error),
        }
    }
}
