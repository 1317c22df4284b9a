//! The words of the command line.

use crate::rt::HostRuntime;
use crate::string::String;
use std::io::{ErrorKind, Result};

/// The words, the program's name first. One that is no UTF-8 is an error.
pub fn args(_rt: &HostRuntime) -> Result<std::vec::IntoIter<String>> {
    let mut words = Vec::new();
    for word in std::env::args_os() {
        let word = word.into_string().map_err(|_| ErrorKind::InvalidData)?;
        words.push(String::owned(word));
    }
    Ok(words.into_iter())
}
