//! A stand-in of ours for arrow-schema: the data types and the errors that byte views name.

use std::fmt;

/// The data types of the arrays that are here.
#[derive(Debug, Clone, PartialEq, Eq, Hash)]
pub enum DataType {
    Binary,
    LargeBinary,
    BinaryView,
    Utf8,
    LargeUtf8,
    Utf8View,
}

impl fmt::Display for DataType {
    fn fmt(&self, f: &mut fmt::Formatter<'_>) -> fmt::Result {
        fmt::Debug::fmt(self, f)
    }
}

/// The one kind of error that byte views answer.
#[derive(Debug)]
pub enum ArrowError {
    InvalidArgumentError(String),
}

impl fmt::Display for ArrowError {
    fn fmt(&self, f: &mut fmt::Formatter<'_>) -> fmt::Result {
        match self {
            ArrowError::InvalidArgumentError(desc) => write!(f, "Invalid argument error: {desc}"),
        }
    }
}

impl std::error::Error for ArrowError {}
