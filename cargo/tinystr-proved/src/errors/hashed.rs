//! Those of hashed tables and maps.

use super::*;
#[cfg(feature = "alloc")]
use crate::hashed::PackHashedError;
use crate::hashed::{HashedError, HashedMapError, HashedTextMapError, PackIntoError};

impl Display for HashedError {
    fn fmt(&self, f: &mut Formatter<'_>) -> Result {
        match self {
            HashedError::Header { len } => write!(f, "{len} bytes are fewer than the sixteen of a header"),
            HashedError::Version { version } => write!(f, "the version is {version}, and not 1"),
            HashedError::Index { size, len } => {
                write!(f, "{len} bytes after the header are fewer than the {size} of pilots and moves")
            }
            HashedError::Records(fault) => write!(f, "{fault}"),
            HashedError::Place { index } => write!(f, "record {index} is out of order"),
        }
    }
}

impl Error for HashedError {}

impl Display for HashedMapError {
    fn fmt(&self, f: &mut Formatter<'_>) -> Result {
        match self {
            HashedMapError::Keys(fault) => write!(f, "keys: {fault}"),
            HashedMapError::Values { keys, len } => write!(f, "{len} bytes aren't a value for each of {keys} keys"),
        }
    }
}

impl Error for HashedMapError {}

impl Display for HashedTextMapError {
    fn fmt(&self, f: &mut Formatter<'_>) -> Result {
        match self {
            HashedTextMapError::Keys(fault) => write!(f, "keys: {fault}"),
            HashedTextMapError::Values(fault) => write!(f, "values: {fault}"),
            HashedTextMapError::Count { keys, values } => write!(f, "there are {values} values for {keys} keys"),
        }
    }
}

impl Error for HashedTextMapError {}

#[cfg(feature = "alloc")]
impl<const N: usize> Display for PackHashedError<N> {
    fn fmt(&self, f: &mut Formatter<'_>) -> Result {
        match self {
            PackHashedError::Duplicate { text } => write!(f, "a text occurs twice: {text}"),
        }
    }
}

#[cfg(feature = "alloc")]
impl<const N: usize> Error for PackHashedError<N> {}

impl Display for PackIntoError {
    fn fmt(&self, f: &mut Formatter<'_>) -> Result {
        match self {
            PackIntoError::Out => write!(f, "there is too little room for the table"),
            PackIntoError::Scratch => write!(f, "there is too little scratch"),
            PackIntoError::Duplicate { index } => write!(f, "text {index} is equal to one before it"),
        }
    }
}

impl Error for PackIntoError {}
