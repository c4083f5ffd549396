//! An error of any kind by its text, in the place of the kit's `anyhow`.
#![allow(warnings)]

pub struct Error(String);

impl<E: std::fmt::Debug> From<E> for Error {
    fn from(error: E) -> Error {
        Error(format!("{error:?}"))
    }
}

impl std::fmt::Display for Error {
    fn fmt(&self, to: &mut std::fmt::Formatter<'_>) -> std::fmt::Result {
        self.0.fmt(to)
    }
}
