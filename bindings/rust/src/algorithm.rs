use core::{fmt, str};

use crate::error::Error;
use crate::{ffi, library};

/// The hash functions of `enum verity_hash_algorithm`. Their names are written and read as the library has them.
#[derive(Clone, Copy, Debug, PartialEq, Eq, PartialOrd, Ord, Hash)]
#[allow(missing_docs)]
pub enum Algorithm {
    Sha256,
    Sha512,
    Sha1,
    Sha224,
    Sha384,
}

const NUMBERS: [(u32, Algorithm); 5] = [
    (ffi::SHA256, Algorithm::Sha256),
    (ffi::SHA512, Algorithm::Sha512),
    (ffi::SHA1, Algorithm::Sha1),
    (ffi::SHA224, Algorithm::Sha224),
    (ffi::SHA384, Algorithm::Sha384),
];

impl Algorithm {
    pub(crate) fn number(self) -> u32 {
        NUMBERS.iter().find(|(_, algorithm)| *algorithm == self).map_or(0, |(number, _)| *number)
    }

    pub(crate) fn of_number(number: u32) -> Result<Algorithm, Error> {
        let found = NUMBERS.iter().find(|(other, _)| *other == number);
        found.map(|(_, algorithm)| *algorithm).ok_or(Error::BadHashAlgorithm)
    }

    /// The one whose digests are so long: no two are alike.
    pub(crate) fn of_digest_length(length: usize) -> Option<Algorithm> {
        NUMBERS.iter().map(|(_, algorithm)| *algorithm).find(|algorithm| algorithm.digest_length() == length)
    }

    /// `verity_digest_length`.
    pub fn digest_length(self) -> usize {
        library::digest_length(self.number()).expect("the library has each of these hash functions")
    }
}

impl fmt::Display for Algorithm {
    fn fmt(&self, to: &mut fmt::Formatter<'_>) -> fmt::Result {
        let mut room = [0; ffi::MAX_TEXT_SIZE];
        let length = library::algorithm_name(self.number(), &mut room).map_err(|_| fmt::Error)?;
        to.write_str(room.get(..length).and_then(|name| str::from_utf8(name).ok()).ok_or(fmt::Error)?)
    }
}

impl str::FromStr for Algorithm {
    type Err = Error;

    fn from_str(name: &str) -> Result<Algorithm, Error> {
        Algorithm::of_number(library::algorithm_by_name(name.as_bytes())?)
    }
}
