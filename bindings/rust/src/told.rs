//! What a reply tells.

use crate::raw::{self, RawReply};
use crate::{Freed, Handle, Progress, Refusal, Row, Tenant};

/// A reply where it has that status.
pub(crate) fn served(status: u16, told: RawReply) -> Result<RawReply, Refusal> {
    if told.status == status {
        Ok(told)
    } else {
        Err(Refusal::of(told))
    }
}

pub(crate) fn handle(told: RawReply) -> Result<Handle, Refusal> {
    Handle::from_u64(told.value).ok_or(Refusal::Other(told.status))
}

pub(crate) fn freed(told: RawReply) -> Result<Freed, Refusal> {
    match told.status {
        raw::DONE => Ok(Freed::Here),
        raw::PARTED => Ok(Freed::InHand),
        _ => Err(Refusal::of(told)),
    }
}

pub(crate) fn row(told: RawReply) -> Result<Row, Refusal> {
    let told = served(raw::LISTED, told)?;
    Ok(Row {
        handle: handle(told)?,
        owner: Tenant(u32::from(told.owner)),
        bytes: told.detail,
    })
}

pub(crate) fn progress(told: RawReply) -> Progress {
    Progress {
        done: told.value as usize,
        refused: (told.status != raw::DONE).then(|| Refusal::of(told)),
    }
}

/// The number that a question told, if it told one.
pub(crate) fn value(told: RawReply) -> Option<u64> {
    (told.status == raw::VALUE).then_some(told.value)
}

/// The same, of what is numbered by 32 bits.
pub(crate) fn number(told: RawReply) -> Option<u32> {
    value(told).map(|number| number as u32)
}

/// The name that stands in a room.
pub(crate) fn name(told: RawReply, room: &[u8]) -> Option<String> {
    let length = value(told)?;
    Some(String::from_utf8_lossy(&room[..length as usize]).into_owned())
}
