//! Handles of a bank.

use crate::handle::{number, Handle};
use crate::number::CoreNumber;
use crate::raw::RawBankHandle;
use std::fmt;
use std::str::FromStr;

/// A block of a bank: its core, and its handle there. Two cores have blocks of one handle. Written
/// `@core/segment.page.index.generation`. `Debug` gives that text too.
#[derive(Clone, Copy, PartialEq, Eq, Hash, PartialOrd, Ord)]
pub struct BankHandle {
    pub core: CoreNumber,
    pub handle: Handle,
}

impl BankHandle {
    pub(crate) fn raw(self) -> RawBankHandle {
        RawBankHandle {
            core: u64::from(self.core.0),
            handle: self.handle.to_u64(),
        }
    }
}

impl fmt::Display for BankHandle {
    fn fmt(&self, f: &mut fmt::Formatter<'_>) -> fmt::Result {
        write!(f, "@{}/", self.core.0)?;
        self.handle.write_numbers(f)
    }
}

impl fmt::Debug for BankHandle {
    fn fmt(&self, f: &mut fmt::Formatter<'_>) -> fmt::Result {
        fmt::Display::fmt(self, f)
    }
}

/// A text that is no handle of a bank.
#[derive(Clone, Copy, Debug, PartialEq, Eq)]
pub struct NoBankHandle;

impl fmt::Display for NoBankHandle {
    fn fmt(&self, f: &mut fmt::Formatter<'_>) -> fmt::Result {
        f.write_str("no handle of a bank: it is written @core/segment.page.index.generation")
    }
}

impl std::error::Error for NoBankHandle {}

impl FromStr for BankHandle {
    type Err = NoBankHandle;

    fn from_str(text: &str) -> Result<BankHandle, NoBankHandle> {
        let read = || {
            let (core, handle) = text.strip_prefix('@')?.split_once('/')?;
            Some(BankHandle {
                core: CoreNumber(number(core)?),
                handle: Handle::of_numbers(handle)?,
            })
        };
        read().ok_or(NoBankHandle)
    }
}

#[cfg(test)]
mod tests {
    use super::*;

    #[test]
    fn handles_of_a_bank_are_written_and_read() {
        for text in [
            "@0/0.0.0.1",
            "@16383/63.15.511.4294967295",
            "@4294967295/5.1.3.7",
        ] {
            let block: BankHandle = text.parse().unwrap();
            assert_eq!(block.to_string(), text);
            assert_eq!(format!("{block:?}"), text);
        }
        let block: BankHandle = "@7/0.1.2.3".parse().unwrap();
        assert_eq!(block.core, CoreNumber(7));
        assert_eq!(block.handle, "@0.1.2.3".parse().unwrap());
    }

    #[test]
    fn they_stand_by_cores_and_then_by_places() {
        let texts = [
            "@0/0.0.1.1",
            "@0/1.0.0.1",
            "@1/0.0.0.1",
            "@1/0.0.0.2",
            "@10/0.0.0.1",
        ];
        let blocks = texts.map(|text| text.parse::<BankHandle>().unwrap());
        assert!(blocks.windows(2).all(|two| two[0] < two[1]));
    }

    #[test]
    fn other_texts_are_no_handles_of_a_bank() {
        for text in [
            "",
            "@",
            "@0",
            "@0/",
            "@/0.0.0.1",
            "0/0.0.0.1",
            "@0.0.0.1",
            "@0/@0.0.0.1",
            "@0/0.0.0.0",
            "@0/64.0.0.1",
            "@00/0.0.0.1",
            "@+1/0.0.0.1",
            "@0/0/0.0.0.1",
            "@0/0.0.0.1 ",
            "@4294967296/0.0.0.1",
        ] {
            assert_eq!(text.parse::<BankHandle>(), Err(NoBankHandle), "{text}");
        }
    }
}
