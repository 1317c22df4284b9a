//! Files by their paths.

use crate::rt::Files;
use crate::string::String;
use crate::vec::Vec;
use std::fs::File;
use std::io::Result;

/// Opens a file to be read.
pub fn open(_files: &impl Files, path: &str) -> Result<File> {
    File::open(path)
}

/// The bytes of a file.
pub fn read(_files: &impl Files, path: &str) -> Result<Vec<u8>> {
    Ok(Vec(std::fs::read(path)?))
}

/// The text of a file.
pub fn read_to_string(_files: &impl Files, path: &str) -> Result<String> {
    Ok(String::owned(std::fs::read_to_string(path)?))
}
