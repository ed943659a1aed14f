//! Stand-in: the errors that the source names.

#[derive(Debug)]
pub enum Error {
    InvalidInput(String),
    Stored,
}

impl From<postcard::Error> for Error {
    fn from(_error: postcard::Error) -> Self {
        Error::Stored
    }
}

impl From<std::io::Error> for Error {
    fn from(_error: std::io::Error) -> Self {
        Error::Stored
    }
}

pub type Result<T> = std::result::Result<T, Error>;
