//! Why something isn't served.

use crate::raw::RawReply;
use std::fmt;

/// A rule of the policy or of the memory. They stand in the order in which a block is judged; a
/// limit is of allocations alone.
#[derive(Clone, Copy, Debug, PartialEq, Eq)]
#[non_exhaustive]
pub enum Rule {
    Stranger,
    /// The handle is of another life; this generation is there, 0 where none is.
    Stale {
        generation: u32,
    },
    AlreadyFreed,
    ForeignArena,
    /// A deny line names the right, whatever is granted.
    Forbidden,
    NotGranted,
    OverLimit,
}

impl fmt::Display for Rule {
    fn fmt(&self, f: &mut fmt::Formatter<'_>) -> fmt::Result {
        f.write_str(match self {
            Rule::Stranger => "stranger",
            Rule::Stale { .. } => "stale",
            Rule::AlreadyFreed => "freed",
            Rule::ForeignArena => "arena",
            Rule::Forbidden => "forbidden",
            Rule::NotGranted => "grant",
            Rule::OverLimit => "limit",
        })
    }
}

/// Why an event isn't served. As text it is what heapguard prints.
#[derive(Clone, Copy, Debug, PartialEq, Eq)]
#[non_exhaustive]
pub enum Refusal {
    Denied(Rule),
    TooLarge,
    NoRoom,
    /// The worker doesn't hold the segment.
    Elsewhere,
    /// There is no such word in the block.
    OutOfBlock,
    /// The worker has another place in hand.
    Busy,
    NothingInHand,
    NotHeld,
    NoSegment,
    /// All cores of the bank are open that there may be.
    Full,
    /// Another call of the service has what this one needs: it did nothing, and may be made again.
    Again,
    /// Memory was refused.
    NoMemory,
    NoWorker,
    /// A status that this crate doesn't know, of a later library.
    Other(u16),
}

impl Refusal {
    pub(crate) fn of(raw: RawReply) -> Refusal {
        match raw.status {
            16 => Refusal::TooLarge,
            17 => Refusal::NoRoom,
            18 => Refusal::Elsewhere,
            19 => Refusal::OutOfBlock,
            20 => Refusal::Busy,
            21 => Refusal::NothingInHand,
            22 => Refusal::NotHeld,
            23 => Refusal::NoSegment,
            24 => Refusal::Full,
            25 => Refusal::Again,
            32 => Refusal::Denied(Rule::Stranger),
            33 => Refusal::Denied(Rule::Stale {
                generation: raw.detail,
            }),
            34 => Refusal::Denied(Rule::AlreadyFreed),
            35 => Refusal::Denied(Rule::ForeignArena),
            36 => Refusal::Denied(Rule::NotGranted),
            37 => Refusal::Denied(Rule::OverLimit),
            38 => Refusal::Denied(Rule::Forbidden),
            57 => Refusal::NoMemory,
            65 => Refusal::NoWorker,
            other => Refusal::Other(other),
        }
    }
}

impl fmt::Display for Refusal {
    fn fmt(&self, f: &mut fmt::Formatter<'_>) -> fmt::Result {
        match self {
            Refusal::Denied(rule) => write!(f, "denied {rule}"),
            Refusal::TooLarge => f.write_str("large"),
            Refusal::NoRoom => f.write_str("noroom"),
            Refusal::Elsewhere => f.write_str("elsewhere"),
            Refusal::OutOfBlock => f.write_str("range"),
            Refusal::Busy => f.write_str("busy"),
            Refusal::NothingInHand => f.write_str("empty"),
            Refusal::NotHeld => f.write_str("notheld"),
            Refusal::NoSegment => f.write_str("nosegment"),
            Refusal::Full => f.write_str("full"),
            Refusal::Again => f.write_str("again"),
            Refusal::NoMemory => f.write_str("no memory"),
            Refusal::NoWorker => f.write_str("no such worker"),
            Refusal::Other(status) => write!(f, "status {status}"),
        }
    }
}

impl std::error::Error for Refusal {}

/// What a fault of a policy is about.
#[derive(Clone, Copy, Debug, PartialEq, Eq)]
#[non_exhaustive]
pub enum FaultKind {
    NotToml,
    Missing,
    Kind,
    Unknown,
    Repeated,
    NoSuchName,
    TooMany,
    Version,
}

/// The first fault of a policy. As text it is the line that heapguard tells.
#[derive(Clone, Debug, PartialEq, Eq)]
pub struct PolicyFault {
    pub kind: FaultKind,
    line: String,
}

impl fmt::Display for PolicyFault {
    fn fmt(&self, f: &mut fmt::Formatter<'_>) -> fmt::Result {
        f.write_str(&self.line)
    }
}

impl std::error::Error for PolicyFault {}

/// Why no core, no bank or no service was opened.
#[derive(Clone, Debug, PartialEq, Eq)]
#[non_exhaustive]
pub enum OpenError {
    Policy(PolicyFault),
    Memory,
    /// A bank has 1 to 16,384 cores.
    NoCount,
    /// A status that this crate doesn't know, of a later library.
    Other(u16),
}

impl OpenError {
    pub(crate) fn of(status: u16, line: &[u8]) -> OpenError {
        let kind = match status {
            49 => FaultKind::NotToml,
            50 => FaultKind::Missing,
            51 => FaultKind::Kind,
            52 => FaultKind::Unknown,
            53 => FaultKind::Repeated,
            54 => FaultKind::NoSuchName,
            55 => FaultKind::TooMany,
            56 => FaultKind::Version,
            57 => return OpenError::Memory,
            69 => return OpenError::NoCount,
            other => return OpenError::Other(other),
        };
        let line = String::from_utf8_lossy(line).into_owned();
        OpenError::Policy(PolicyFault { kind, line })
    }
}

impl fmt::Display for OpenError {
    fn fmt(&self, f: &mut fmt::Formatter<'_>) -> fmt::Result {
        match self {
            OpenError::Policy(fault) => fault.fmt(f),
            OpenError::Memory => f.write_str("no memory"),
            OpenError::NoCount => f.write_str("no bank of so many cores"),
            OpenError::Other(status) => write!(f, "status {status}"),
        }
    }
}

impl std::error::Error for OpenError {}

#[cfg(test)]
mod tests {
    use super::*;
    use crate::{Arena, Core, Segment, Tenant, Worker};

    const POLICY: &str = r#"version = 2
workers = 1
tenant = [ {name = "alice", limit = 8192}, {name = "bob", limit = 64} ]
arena = [ {name = "main", segments = 1} ]
group = [ {name = "all", members = ["alice", "bob"]} ]
grant = [ {owner = "alice", to = "all", rights = ["read", "write"]} ]
deny = [ {owner = "all", to = "all", rights = ["write"]} ]
"#;

    #[test]
    fn what_is_denied_is_forbidden() {
        let mut core = Core::open(POLICY).unwrap();
        let (alice, bob) = (core.tenant("alice").unwrap(), core.tenant("bob").unwrap());
        let (worker, main) = (Worker(0), core.arena("main").unwrap());
        core.refill(worker, main).unwrap();
        let block = core.alloc(worker, alice, main, 8).unwrap();
        assert_eq!(core.write(worker, alice, block, 0, 7), Ok(()));
        assert_eq!(core.read(worker, bob, block, 0), Ok(7));
        let forbidden = Refusal::Denied(Rule::Forbidden);
        assert_eq!(core.write(worker, bob, block, 0, 8), Err(forbidden));
        assert_eq!(forbidden.to_string(), "denied forbidden");
        let ungranted = Err(Refusal::Denied(Rule::NotGranted));
        assert_eq!(core.free(worker, bob, block), ungranted);
    }

    #[test]
    fn no_number_is_another_one() {
        let mut core = Core::open(POLICY).unwrap();
        let (worker, alice) = (Worker(0), core.tenant("alice").unwrap());
        let main = core.arena("main").unwrap();
        assert_eq!((alice, main), (Tenant(0), Arena(0)));
        assert_eq!(core.refill(worker, main), Ok(Segment(0)));
        let block = core.alloc(worker, alice, main, 8).unwrap();
        for wide in [255, 256, 1 << 16, u32::MAX] {
            let stranger = Err(Refusal::Denied(Rule::Stranger));
            assert_eq!(core.read(worker, Tenant(wide), block, 0), stranger);
            assert_eq!(
                core.read(Worker(wide), alice, block, 0),
                Err(Refusal::NoWorker)
            );
            let foreign = Err(Refusal::Denied(Rule::ForeignArena));
            assert_eq!(core.alloc(worker, alice, Arena(wide), 8), foreign);
            assert_eq!(core.abandon(worker, Segment(wide)), Err(Refusal::NotHeld));
            assert!(!core.holds(worker, Segment(wide)) && !core.holds(Worker(wide), Segment(0)));
            assert_eq!(core.tenant_name(Tenant(wide)), None);
        }
        assert!(core.holds(worker, Segment(0)) && core.segments() == 1);
        assert_eq!(core.read(worker, alice, block, 0), Ok(0));
    }
}
