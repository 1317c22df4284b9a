//! An error that keeps its text alone, as the crate `anyhow` has it.

use std::fmt::{Debug, Display, Formatter, Result as Shown};

/// An error: its message, and those of its causes behind it.
pub struct Error {
    messages: Vec<String>,
}

pub type Result<T, E = Error> = std::result::Result<T, E>;

impl Error {
    pub fn msg<M: Display>(message: M) -> Error {
        Error {
            messages: vec![message.to_string()],
        }
    }

    /// The error with a message before it.
    pub fn context<C: Display>(mut self, context: C) -> Error {
        self.messages.insert(0, context.to_string());
        self
    }
}

impl<E: std::error::Error> From<E> for Error {
    fn from(error: E) -> Error {
        Error::msg(error)
    }
}

impl Display for Error {
    fn fmt(&self, f: &mut Formatter<'_>) -> Shown {
        f.write_str(&self.messages[0])
    }
}

impl Debug for Error {
    fn fmt(&self, f: &mut Formatter<'_>) -> Shown {
        f.write_str(&self.messages[0])?;
        if self.messages.len() > 1 {
            f.write_str("\n\nCaused by:")?;
        }
        for message in &self.messages[1..] {
            write!(f, "\n    {message}")?;
        }
        Ok(())
    }
}

/// Says what was done when an error came.
pub trait Context<T> {
    fn context<C: Display>(self, context: C) -> Result<T>;
}

impl<T, E: Into<Error>> Context<T> for Result<T, E> {
    fn context<C: Display>(self, context: C) -> Result<T> {
        self.map_err(|error| error.into().context(context))
    }
}

impl<T> Context<T> for Option<T> {
    fn context<C: Display>(self, context: C) -> Result<T> {
        self.ok_or_else(|| Error::msg(context))
    }
}

/// Returns an error of this text.
#[macro_export]
macro_rules! bail {
    ($($text:tt)*) => {
        return Err($crate::Error::msg(format_args!($($text)*)))
    };
}
