//! Those of sorted tables and maps.

use super::*;
use crate::packed::{MapError, NotRising, SortedError, TextMapError};

impl Display for NotRising {
    fn fmt(&self, f: &mut Formatter<'_>) -> Result {
        write!(f, "record {} isn't above the one before it", self.index)
    }
}

impl Error for NotRising {}

impl Display for SortedError {
    fn fmt(&self, f: &mut Formatter<'_>) -> Result {
        match self {
            SortedError::Records(fault) => write!(f, "{fault}"),
            SortedError::Order(fault) => write!(f, "{fault}"),
        }
    }
}

impl Error for SortedError {}

impl Display for MapError {
    fn fmt(&self, f: &mut Formatter<'_>) -> Result {
        match self {
            MapError::Keys(fault) => write!(f, "keys: {fault}"),
            MapError::Order(fault) => write!(f, "keys: {fault}"),
            MapError::Values { keys, len } => write!(f, "{len} bytes aren't a value for each of {keys} keys"),
        }
    }
}

impl Error for MapError {}

impl Display for TextMapError {
    fn fmt(&self, f: &mut Formatter<'_>) -> Result {
        match self {
            TextMapError::Keys(fault) => write!(f, "keys: {fault}"),
            TextMapError::Values(fault) => write!(f, "values: {fault}"),
            TextMapError::Count { keys, values } => write!(f, "there are {values} values for {keys} keys"),
        }
    }
}

impl Error for TextMapError {}
