//! Handles and places.

use crate::number::Segment;
use std::fmt;
use std::num::NonZeroU64;
use std::str::FromStr;

const PLACES: u32 = 64 * 8192;

/// Where a block may stand: a segment, a page of it, and an index among the page's places.
#[derive(Clone, Copy, Debug, PartialEq, Eq, Hash, PartialOrd, Ord)]
pub struct Place(u32);

impl Place {
    /// The place of a number that the library told.
    pub(crate) fn of(number: u32) -> Place {
        Place(number)
    }

    /// The place of a segment below 64, a page below 16 and an index below 512.
    pub fn new(segment: Segment, page: u8, index: u16) -> Option<Place> {
        (segment.0 < 64 && page < 16 && index < 512)
            .then(|| Place(segment.0 * 8192 + u32::from(page) * 512 + u32::from(index)))
    }

    pub fn segment(self) -> Segment {
        Segment(self.0 / 8192)
    }

    pub fn page(self) -> u8 {
        (self.0 / 512 % 16) as u8
    }

    pub fn index(self) -> u16 {
        (self.0 % 512) as u16
    }

    /// The number of the place, counted over all segments.
    pub fn number(self) -> u32 {
        self.0
    }
}

/// One life of a place: its generation, 1 for the first. Written `@segment.page.index.generation`.
/// `Debug` gives that text too.
#[derive(Clone, Copy, PartialEq, Eq, Hash, PartialOrd, Ord)]
pub struct Handle(NonZeroU64);

impl Handle {
    /// The life of this generation, at least 1.
    pub fn new(place: Place, generation: u32) -> Option<Handle> {
        Handle::from_u64(u64::from(place.0) << 32 | u64::from(generation))
    }

    /// The handle of a word, if it is the word of one.
    pub fn from_u64(word: u64) -> Option<Handle> {
        let is_handle = word >> 32 < u64::from(PLACES) && word as u32 != 0;
        if is_handle {
            NonZeroU64::new(word).map(Handle)
        } else {
            None
        }
    }

    pub fn to_u64(self) -> u64 {
        self.0.get()
    }

    pub fn place(self) -> Place {
        Place((self.to_u64() >> 32) as u32)
    }

    pub fn generation(self) -> u32 {
        self.to_u64() as u32
    }

    /// Writes `segment.page.index.generation`.
    pub(crate) fn write_numbers(self, f: &mut fmt::Formatter<'_>) -> fmt::Result {
        let place = self.place();
        write!(
            f,
            "{}.{}.{}.{}",
            place.segment().0,
            place.page(),
            place.index(),
            self.generation()
        )
    }

    /// Reads what `write_numbers` writes.
    pub(crate) fn of_numbers(text: &str) -> Option<Handle> {
        let mut parts = text.split('.');
        let place = Place::new(
            Segment(number(parts.next()?)?),
            number(parts.next()?)?,
            number(parts.next()?)?,
        )?;
        let generation = number(parts.next()?)?;
        parts.next().is_none().then_some(())?;
        Handle::new(place, generation)
    }
}

impl fmt::Display for Handle {
    fn fmt(&self, f: &mut fmt::Formatter<'_>) -> fmt::Result {
        f.write_str("@")?;
        self.write_numbers(f)
    }
}

impl fmt::Debug for Handle {
    fn fmt(&self, f: &mut fmt::Formatter<'_>) -> fmt::Result {
        fmt::Display::fmt(self, f)
    }
}

/// A text that is no handle.
#[derive(Clone, Copy, Debug, PartialEq, Eq)]
pub struct NoHandle;

impl fmt::Display for NoHandle {
    fn fmt(&self, f: &mut fmt::Formatter<'_>) -> fmt::Result {
        f.write_str("no handle: it is written @segment.page.index.generation")
    }
}

impl std::error::Error for NoHandle {}

/// Decimal digits without a sign and without leading zeros.
pub(crate) fn number<N: FromStr>(digits: &str) -> Option<N> {
    let is_plain =
        digits.bytes().all(|b| b.is_ascii_digit()) && (digits == "0" || !digits.starts_with('0'));
    is_plain.then(|| digits.parse().ok()).flatten()
}

impl FromStr for Handle {
    type Err = NoHandle;

    fn from_str(text: &str) -> Result<Handle, NoHandle> {
        let numbers = text.strip_prefix('@').and_then(Handle::of_numbers);
        numbers.ok_or(NoHandle)
    }
}

#[cfg(test)]
mod tests {
    use super::*;

    #[test]
    fn handles_are_written_and_read() {
        for text in ["@0.0.0.1", "@63.15.511.4294967295", "@5.1.3.7"] {
            let handle: Handle = text.parse().unwrap();
            assert_eq!(handle.to_string(), text);
            assert_eq!(format!("{handle:?}"), text);
            assert_eq!(Handle::from_u64(handle.to_u64()), Some(handle));
        }
        assert_eq!(
            "@0.1.2.3".parse::<Handle>().unwrap().to_u64(),
            514 << 32 | 3
        );
    }

    #[test]
    fn other_texts_are_no_handles() {
        for text in [
            "",
            "@",
            "0.0.0.1",
            "@0.0.0.0",
            "@64.0.0.1",
            "@0.16.0.1",
            "@0.0.512.1",
            "@0.0.0",
            "@0.0.0.1.1",
            "@0.0.0.01",
            "@0.0.0.+1",
            "@0.0.0.1 ",
            "@0.0.0.4294967296",
        ] {
            assert_eq!(text.parse::<Handle>(), Err(NoHandle), "{text}");
        }
    }

    #[test]
    fn other_words_are_no_handles() {
        for word in [
            0,
            1 << 32,
            u64::MAX,
            0xdead_beef_dead_beef,
            u64::from(PLACES) << 32 | 1,
        ] {
            assert_eq!(Handle::from_u64(word), None, "{word:#x}");
        }
    }
}
