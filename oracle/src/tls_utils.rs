//! A shim for the crate's TLS errors: two types without a value.

use std::fmt;

#[derive(Debug)]
pub enum Error {}

#[derive(Debug)]
pub enum InvalidDnsNameError {}

impl fmt::Display for Error {
    fn fmt(&self, _: &mut fmt::Formatter<'_>) -> fmt::Result {
        match *self {}
    }
}

impl fmt::Display for InvalidDnsNameError {
    fn fmt(&self, _: &mut fmt::Formatter<'_>) -> fmt::Result {
        match *self {}
    }
}
