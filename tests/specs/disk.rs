// Files and folders. What cannot be read must not count as empty.

use std::fs::{read_dir, read_to_string};
use std::io::ErrorKind;
use std::path::{Path, PathBuf};

pub fn read(path: &Path) -> String {
    read_to_string(path).unwrap_or_else(|error| panic!("{}: {error}", path.display()))
}

/// What stands in a folder, in the order of the names.
pub fn folder(path: &Path) -> Vec<PathBuf> {
    entries(path).unwrap_or_else(|error| panic!("{}: {error}", path.display()))
}

/// The files of this kind in a folder and the folders below, in the order of their names; a crate may be without the folder.
pub fn files(path: &Path, extension: &str) -> Vec<PathBuf> {
    let inside = match entries(path) {
        Err(error) if error.kind() == ErrorKind::NotFound => Vec::new(),
        found => found.unwrap_or_else(|error| panic!("{}: {error}", path.display())),
    };
    let mut found = Vec::new();
    for path in inside {
        if path.is_dir() {
            found.extend(files(&path, extension));
        } else if path.extension().is_some_and(|end| end == extension) {
            found.push(path);
        }
    }
    found
}

fn entries(path: &Path) -> std::io::Result<Vec<PathBuf>> {
    let mut found = Vec::new();
    for entry in read_dir(path)? {
        found.push(entry?.path());
    }
    found.sort();
    Ok(found)
}

/// The name of a file without its ending, or of a folder.
pub fn stem(path: &Path) -> String {
    path.file_stem().unwrap_or_default().to_string_lossy().to_string()
}
