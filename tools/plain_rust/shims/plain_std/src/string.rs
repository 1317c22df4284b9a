//! Owned texts.

use crate::alloc::{AllocError, Global};
use std::borrow::Borrow;
use std::fmt::{Arguments, Debug, Display, Formatter, Result as Shown};
use std::ops::Deref;

/// An owned text.
#[derive(PartialEq, Eq, PartialOrd, Ord, Hash)]
pub struct String(std::string::String);

/// What `format!` makes.
pub fn formatted(_alloc: Global, text: Arguments<'_>) -> Result<String, AllocError> {
    Ok(String(text.to_string()))
}

impl String {
    pub fn new(_alloc: Global) -> String {
        String(std::string::String::new())
    }

    pub fn from_str(_alloc: Global, text: &str) -> Result<String, AllocError> {
        Ok(String(text.into()))
    }

    pub(crate) fn owned(text: std::string::String) -> String {
        String(text)
    }

    #[inline]
    pub fn as_str(&self) -> &str {
        &self.0
    }

    #[inline]
    pub fn as_bytes(&self) -> &[u8] {
        self.0.as_bytes()
    }

    #[inline]
    pub fn len(&self) -> usize {
        self.0.len()
    }

    pub fn push_str(&mut self, text: &str) -> Result<(), AllocError> {
        self.0.push_str(text);
        Ok(())
    }

    pub fn push(&mut self, ch: char) -> Result<(), AllocError> {
        self.0.push(ch);
        Ok(())
    }
}

impl Deref for String {
    type Target = str;

    #[inline]
    fn deref(&self) -> &str {
        &self.0
    }
}

impl Borrow<str> for String {
    fn borrow(&self) -> &str {
        &self.0
    }
}

impl Display for String {
    fn fmt(&self, f: &mut Formatter<'_>) -> Shown {
        Display::fmt(&self.0, f)
    }
}

impl Debug for String {
    fn fmt(&self, f: &mut Formatter<'_>) -> Shown {
        Debug::fmt(&self.0, f)
    }
}
