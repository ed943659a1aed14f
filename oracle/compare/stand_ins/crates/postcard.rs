//! Stand-in for postcard: nothing is ever stored, so every call fails.

#[derive(Debug)]
pub struct Error;

pub fn to_allocvec<T>(_value: &T) -> Result<Vec<u8>, Error> {
    Err(Error)
}

pub fn to_extend<T>(_value: &T, _bytes: Vec<u8>) -> Result<Vec<u8>, Error> {
    Err(Error)
}

pub fn from_bytes<T>(_bytes: &[u8]) -> Result<T, Error> {
    Err(Error)
}
