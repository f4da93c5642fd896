//! Stand-in for anyhow: the result type alone. No operation carried over makes an error.

#[derive(Debug)]
pub struct Error;

pub type Result<T> = std::result::Result<T, Error>;
