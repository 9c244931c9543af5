//! `crate::core::result`: the error type of `try_compile`, which nothing here calls.

/// The kinds of error that the originals name.
#[derive(Copy, Clone, Debug)]
pub enum CobraError {
    InvalidArgument,
}

/// An error with its message.
#[derive(Clone, Debug)]
pub struct Error {
    pub kind: CobraError,
    pub message: String,
}

pub type Result<T> = std::result::Result<T, Error>;

/// Makes an error.
pub fn err(kind: CobraError, message: String) -> Error {
    Error { kind, message }
}
