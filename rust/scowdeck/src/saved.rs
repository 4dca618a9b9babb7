//! Record and store, saved together.

use crate::ffi::{self, RECORD, STORE};
use std::fmt;

const NAME: &[u8; 8] = b"SCOWDECK";
const FORM: u8 = 1;
const HEADER: usize = NAME.len() + 1;
const WORDS: usize = HEADER + 4 * RECORD;
const CHECK: usize = WORDS + STORE;
const LENGTH: usize = CHECK + 2;

/// A saved desk: name, form, the record's words big-endian, the store's octets, and the error control field
/// over all of it. Record and store mean nothing without each other, so there is no way to save one alone.
#[derive(Clone, PartialEq, Eq)]
pub struct Saved(Vec<u8>);

impl Saved {
    pub(crate) fn new(record: &[u32; RECORD], store: &[u8]) -> Saved {
        let mut octets = Vec::with_capacity(LENGTH);
        octets.extend(NAME);
        octets.push(FORM);
        octets.extend(record.iter().flat_map(|word| word.to_be_bytes()));
        octets.extend(store);
        let check = ffi::syndrome(&octets) as u16;
        octets.extend(check.to_be_bytes());
        Saved(octets)
    }

    /// The octets to keep.
    pub fn as_bytes(&self) -> &[u8] {
        &self.0
    }

    /// The octets to keep.
    pub fn into_bytes(self) -> Vec<u8> {
        self.0
    }
}

impl fmt::Debug for Saved {
    fn fmt(&self, f: &mut fmt::Formatter<'_>) -> fmt::Result {
        write!(f, "Saved({} octets)", self.0.len())
    }
}

/// Why octets are not a saved desk.
#[derive(Clone, Copy, Debug, PartialEq, Eq, Hash)]
pub enum LoadError {
    /// They do not begin with the name of a saved desk.
    NotSaved,
    /// A form that this version does not know.
    Form(u8),
    /// Not as many octets as a saved desk has: record or store is not whole.
    Length {
        /// Octets given.
        given: usize,
        /// Octets of a saved desk.
        wanted: usize,
    },
    /// The error control field does not agree: an octet was changed since.
    Damaged,
}

impl fmt::Display for LoadError {
    fn fmt(&self, f: &mut fmt::Formatter<'_>) -> fmt::Result {
        match self {
            LoadError::NotSaved => write!(f, "this is no saved desk"),
            LoadError::Form(form) => write!(f, "a saved desk of the unknown form {form}"),
            LoadError::Length { given, wanted } => {
                write!(f, "a saved desk has {wanted} octets, and not {given}")
            }
            LoadError::Damaged => write!(f, "the saved desk is damaged"),
        }
    }
}

impl std::error::Error for LoadError {}

/// Takes a saved desk apart. Whether the record's rules hold is for the reader to say (refusal 4).
pub(crate) fn load(octets: &[u8]) -> Result<([u32; RECORD], &[u8]), LoadError> {
    if !octets.starts_with(NAME) {
        return Err(LoadError::NotSaved);
    }
    match octets.get(NAME.len()) {
        Some(&FORM) | None => {}
        Some(&form) => return Err(LoadError::Form(form)),
    }
    if octets.len() != LENGTH {
        return Err(LoadError::Length { given: octets.len(), wanted: LENGTH });
    }
    if ffi::syndrome(octets) != 0 {
        return Err(LoadError::Damaged);
    }
    let mut record = [0; RECORD];
    for (word, octets) in record.iter_mut().zip(octets[HEADER..WORDS].chunks_exact(4)) {
        *word = u32::from_be_bytes([octets[0], octets[1], octets[2], octets[3]]);
    }
    Ok((record, &octets[WORDS..CHECK]))
}

#[cfg(test)]
mod tests {
    use super::*;

    fn saved() -> Vec<u8> {
        let mut record = [0; RECORD];
        record[3] = 0x0102_0304;
        Saved::new(&record, &[7; STORE]).into_bytes()
    }

    #[test]
    fn comes_back() {
        let octets = saved();
        let (record, store) = load(&octets).unwrap();
        assert_eq!((record[3], record[4]), (0x0102_0304, 0));
        assert_eq!(store, [7; STORE]);
    }

    #[test]
    fn record_alone_or_store_alone_is_refused() {
        let octets = saved();
        let given = |n: usize| LoadError::Length { given: n, wanted: LENGTH };
        assert_eq!(load(&octets[..WORDS]), Err(given(WORDS)));
        assert_eq!(load(&octets[..LENGTH - 1]), Err(given(LENGTH - 1)));
        assert_eq!(load(&octets[..NAME.len()]), Err(given(NAME.len())));
        assert_eq!(load(&octets[WORDS..]), Err(LoadError::NotSaved));
        assert_eq!(load(&[]), Err(LoadError::NotSaved));
    }

    #[test]
    fn damage_is_refused() {
        for place in [HEADER, WORDS - 1, WORDS, CHECK - 1, CHECK, LENGTH - 1] {
            let mut octets = saved();
            octets[place] ^= 0x20;
            assert_eq!(load(&octets), Err(LoadError::Damaged));
        }
        let mut octets = saved();
        octets[NAME.len()] = 9;
        assert_eq!(load(&octets), Err(LoadError::Form(9)));
    }
}
