//! Tables that people can write: makes an image from a text, and shows an accepted image as a text.

#![forbid(unsafe_code)]

mod bits;
mod image;
mod layout;
mod records;
mod rules;
mod table;
#[cfg(test)]
mod tests;
mod text;
mod values;
mod whole;
mod words;

use std::ffi::{OsStr, OsString};
use std::fs::{self, File, Metadata, OpenOptions};
use std::io::{self, stdout, ErrorKind, Write};
use std::os::unix::fs::{fchown, MetadataExt};
use std::path::Path;
use std::process::ExitCode;

fn main() -> ExitCode {
    let words: Vec<OsString> = std::env::args_os().skip(1).collect();
    let words: Vec<&OsStr> = words.iter().map(OsString::as_os_str).collect();
    let done = match words.as_slice() {
        [command, text, image] if *command == "make" => make_file(Path::new(text), Path::new(image)),
        [command, image] if *command == "show" => show_file(Path::new(image)),
        _ => Err("expected make TEXT IMAGE or show IMAGE, as make data/base.table.txt base.table".to_string()),
    };
    match done {
        Ok(()) => ExitCode::SUCCESS,
        Err(message) => {
            // File names stand in it as they were given.
            eprintln!("tables: {}", message.replace(char::is_control, "?"));
            ExitCode::FAILURE
        }
    }
}

/// Writes the image that a text makes; nothing is written where the text is refused, and never over the text itself.
fn make_file(text: &Path, image: &Path) -> Result<(), String> {
    if fs::canonicalize(image).is_ok_and(|image| fs::canonicalize(text).is_ok_and(|text| text == image)) {
        return Err(format!("{} is the text; expected another file for the image", image.display()));
    }
    let octets = make(&read(text)?).map_err(|message| format!("{}: {message}", text.display()))?;
    write_whole(image, &octets).map_err(|error| format!("{} cannot be written: {error}", image.display()))
}

/// Writes a file whole or leaves it as it was: a new one beside it takes its place. What is no file, as a pipe, is written as it is.
fn write_whole(path: &Path, octets: &[u8]) -> io::Result<()> {
    let old = match OpenOptions::new().write(true).open(path) {
        Ok(mut old) if !old.metadata()?.is_file() => return old.write_all(octets),
        Ok(old) => Some(old.metadata()?),
        Err(error) if error.kind() == ErrorKind::NotFound => None,
        Err(error) => return Err(error),
    };
    // Where a link leads, so that it stays one.
    let place = fs::canonicalize(path).unwrap_or_else(|_| path.to_path_buf());
    let new = place.with_file_name(format!(".image-{}", std::process::id()));
    let written = write_new(&new, octets, old).and_then(|()| fs::rename(&new, &place));
    if written.is_err() {
        let _ = fs::remove_file(&new);
    }
    written
}

/// Writes a new file through to the disk, with the permissions of the old one and, where that is allowed, its owner.
fn write_new(path: &Path, octets: &[u8], old: Option<Metadata>) -> io::Result<()> {
    let mut file = File::create_new(path)?;
    if let Some(old) = old {
        let _ = fchown(&file, Some(old.uid()), Some(old.gid()));
        file.set_permissions(old.permissions())?;
    }
    file.write_all(octets)?;
    file.sync_all()
}

/// The image of a text. It is read back, so that no slip here lets out an image that would not be accepted.
fn make(text: &[u8]) -> Result<Vec<u8>, String> {
    let table = text::parse(text).map_err(|fault| fault.to_string())?;
    let octets = image::write_image(&table);
    image::read_image(&octets).map_err(|refusal| format!("its image would be {refusal}"))?;
    Ok(octets)
}

fn show_file(image: &Path) -> Result<(), String> {
    let table = image::read_image(&read(image)?).map_err(|refusal| format!("{}: {refusal}", image.display()))?;
    stdout().write_all(text::show(&table).as_bytes()).map_err(|error| format!("the text cannot be written: {error}"))
}

fn read(path: &Path) -> Result<Vec<u8>, String> {
    fs::read(path).map_err(|error| format!("{} cannot be read: {error}", path.display()))
}
