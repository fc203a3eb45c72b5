//! heapguard's cores, banks and services in a Rust program: blocks of a memory of its own that tenants share
//! under a written policy, named by handles and never by addresses.
//!
//! ```
//! use heapguard::{Core, Refusal, Rule, Worker};
//!
//! let mut core = Core::open(
//!     "version = 1
//!      workers = 1
//!      tenant = [ {name = \"alice\", limit = 8192}, {name = \"bob\", limit = 64} ]
//!      arena = [ {name = \"main\", segments = 1} ]",
//! )?;
//! let (alice, bob) = (core.tenant("alice").unwrap(), core.tenant("bob").unwrap());
//! let (worker, main) = (Worker(0), core.arena("main").unwrap());
//! core.refill(worker, main).unwrap();
//! let block = core.alloc(worker, alice, main, 24).unwrap();
//! core.write(worker, alice, block, 1, 42).unwrap();
//! assert_eq!(core.read(worker, alice, block, 1), Ok(42));
//! assert_eq!(core.read(worker, bob, block, 1), Err(Refusal::Denied(Rule::NotGranted)));
//! # Ok::<(), heapguard::OpenError>(())
//! ```
//!
//! A [`Core`] has 4 MiB of blocks; a [`Bank`] is many cores under one policy; a [`Service`] is what a
//! core is, served by several threads at once, and a [`BankService`] what a bank is.
//!
//! All calls are safe. What the library proves of each is in `crates/hg_c/README.md`.

mod bank;
mod bank_handle;
mod bank_service;
mod handle;
mod number;
mod raw;
mod refusal;
mod service;
mod told;

pub use bank::Bank;
pub use bank_handle::{BankHandle, NoBankHandle};
pub use bank_service::{BankNotClosed, BankNotLeft, BankService, BankUnclosed, BankWorker};
pub use handle::{Handle, NoHandle, Place};
pub use number::{Arena, CoreNumber, Segment, Tenant, Worker};
pub use refusal::{FaultKind, OpenError, PolicyFault, Refusal, Rule};
pub use service::{NotClosed, NotLeft, Service, ServiceWorker, Unclosed};

use raw::{RawCore, RawReply};
use std::fmt;

/// Room for the line that tells a policy's fault; a longer one is cut.
const LINE_ROOM: usize = 1024;

/// Room for a tenant's name, which is never longer.
const NAME_ROOM: usize = 16;

/// The release of the library that is linked: its major, minor and patch number.
pub fn version() -> (u32, u32, u32) {
    // SAFETY: the call reads and writes nothing.
    let number = unsafe { raw::hg_version() };
    (number >> 16, number >> 8 & 255, number & 255)
}

/// What became of a block that was freed.
#[derive(Clone, Copy, Debug, PartialEq, Eq)]
#[non_exhaustive]
pub enum Freed {
    /// Its place is home.
    Here,
    /// The worker doesn't hold its segment, and has the place in hand.
    InHand,
}

/// How many words were read or written, and why the next wasn't, if one wasn't.
#[derive(Clone, Copy, Debug, PartialEq, Eq)]
#[must_use = "it tells how many words were read or written, and why no more"]
pub struct Progress {
    pub done: usize,
    pub refused: Option<Refusal>,
}

/// A block that is listed.
#[derive(Clone, Copy, Debug, PartialEq, Eq)]
pub struct Row {
    pub handle: Handle,
    /// The tenant whose block it is.
    pub owner: Tenant,
    pub bytes: u32,
}

/// An open core. It may go to another thread, and several threads may ask it at once: `Send` and
/// `Sync`.
pub struct Core {
    raw: RawCore,
}

/// How many workers and segments it has, and nothing of what is in them.
impl fmt::Debug for Core {
    fn fmt(&self, f: &mut fmt::Formatter<'_>) -> fmt::Result {
        f.debug_struct("Core")
            .field("workers", &self.workers())
            .field("segments", &self.segments())
            .finish_non_exhaustive()
    }
}

// SAFETY: crates/hg_ffi proves `Send` of the type behind these fields.
unsafe impl Send for Core {}

// SAFETY: crates/hg_ffi proves `Sync` of it too, and that what takes `&self` only reads it.
unsafe impl Sync for Core {}

impl Core {
    /// Opens a core by the text of its policy.
    pub fn open(policy: &str) -> Result<Core, OpenError> {
        let mut raw = RawCore::closed();
        let mut room = [0; LINE_ROOM];
        // SAFETY: the core is closed and this call's alone; pointers and lengths are those of
        // slices that are borrowed for the call.
        let reply = unsafe {
            raw::hg_open(
                &mut raw,
                policy.as_ptr(),
                policy.len(),
                room.as_mut_ptr(),
                room.len(),
            )
        };
        if reply.status == raw::DONE {
            return Ok(Core { raw });
        }
        Err(OpenError::of(reply.status, &room[..reply.value as usize]))
    }

    /// Asks for a block of so many bytes, 65,536 at most, whose words are 0. Above 4,096 bytes it has
    /// 8, 16, 32 or 64 KiB.
    pub fn alloc(
        &mut self,
        worker: Worker,
        actor: Tenant,
        arena: Arena,
        bytes: u64,
    ) -> Result<Handle, Refusal> {
        let call = |core| unsafe { raw::hg_alloc(core, worker.0, actor.0, arena.0, bytes) };
        told::handle(self.serve(raw::BLOCK, call)?)
    }

    /// Frees a block.
    pub fn free(&mut self, worker: Worker, actor: Tenant, block: Handle) -> Result<Freed, Refusal> {
        let call = |core| unsafe { raw::hg_free(core, worker.0, actor.0, block.to_u64()) };
        told::freed(call(&mut self.raw))
    }

    /// Sends what the worker has in hand to those who hold its segment.
    pub fn deliver(&mut self, worker: Worker) -> Result<(), Refusal> {
        let call = |core| unsafe { raw::hg_deliver(core, worker.0) };
        self.serve(raw::DONE, call).map(drop)
    }

    /// Takes home what was sent to a segment that the worker holds, and tells how many places came.
    pub fn take(&mut self, worker: Worker, segment: Segment) -> Result<u64, Refusal> {
        let call = |core| unsafe { raw::hg_take(core, worker.0, segment.0) };
        Ok(self.serve(raw::TAKEN, call)?.value)
    }

    /// Takes the class from each of the worker's pages that has no block, and tells from how many.
    pub fn collect(&mut self, worker: Worker) -> Result<u64, Refusal> {
        let call = |core| unsafe { raw::hg_collect(core, worker.0) };
        Ok(self.serve(raw::PAGES, call)?.value)
    }

    /// Reads a word of a block.
    pub fn read(
        &mut self,
        worker: Worker,
        actor: Tenant,
        block: Handle,
        index: u32,
    ) -> Result<u64, Refusal> {
        let call = |core| unsafe { raw::hg_read(core, worker.0, actor.0, block.to_u64(), index) };
        Ok(self.serve(raw::VALUE, call)?.value)
    }

    /// Writes a word of a block.
    pub fn write(
        &mut self,
        worker: Worker,
        actor: Tenant,
        block: Handle,
        index: u32,
        value: u64,
    ) -> Result<(), Refusal> {
        let word = block.to_u64();
        let call = |core| unsafe { raw::hg_write(core, worker.0, actor.0, word, index, value) };
        self.serve(raw::DONE, call).map(drop)
    }

    /// Looks at the block that stands at a place.
    pub fn look(&mut self, worker: Worker, actor: Tenant, place: Place) -> Result<Row, Refusal> {
        let call = |core| unsafe { raw::hg_look(core, worker.0, actor.0, place.number()) };
        told::row(call(&mut self.raw))
    }

    /// Gives up a segment that the worker holds.
    pub fn abandon(&mut self, worker: Worker, segment: Segment) -> Result<(), Refusal> {
        let call = |core| unsafe { raw::hg_abandon(core, worker.0, segment.0) };
        self.serve(raw::DONE, call).map(drop)
    }

    /// Takes a segment of an arena that nobody holds, and tells which.
    pub fn refill(&mut self, worker: Worker, arena: Arena) -> Result<Segment, Refusal> {
        let call = |core| unsafe { raw::hg_refill(core, worker.0, arena.0) };
        Ok(Segment(self.serve(raw::REFILLED, call)?.value as u32))
    }

    /// Reads as many words of a block as the room has, from the word of an index on, until one is
    /// refused.
    pub fn read_words(
        &mut self,
        worker: Worker,
        actor: Tenant,
        block: Handle,
        first: u32,
        room: &mut [u64],
    ) -> Progress {
        let (word, count) = (block.to_u64(), room.len());
        // SAFETY: the core is open and this call's alone; pointer and length are those of a slice
        // that is borrowed for the call. So in the next.
        told::progress(unsafe {
            raw::hg_read_words(
                &mut self.raw,
                worker.0,
                actor.0,
                word,
                first,
                room.as_mut_ptr(),
                count,
            )
        })
    }

    /// Writes words into a block, from the word of an index on, until one is refused.
    pub fn write_words(
        &mut self,
        worker: Worker,
        actor: Tenant,
        block: Handle,
        first: u32,
        words: &[u64],
    ) -> Progress {
        let (word, count) = (block.to_u64(), words.len());
        told::progress(unsafe {
            raw::hg_write_words(
                &mut self.raw,
                worker.0,
                actor.0,
                word,
                first,
                words.as_ptr(),
                count,
            )
        })
    }

    /// Reads as many bytes of a block as the room has, from the byte of an offset on, until a word's
    /// Read is refused. Eight lie in a word, the least first.
    pub fn read_bytes(
        &mut self,
        worker: Worker,
        actor: Tenant,
        block: Handle,
        first: u64,
        room: &mut [u8],
    ) -> Progress {
        let (word, count) = (block.to_u64(), room.len());
        // SAFETY: the core is open and this call's alone; pointer and length are those of a slice
        // that is borrowed for the call. So in the next.
        told::progress(unsafe {
            raw::hg_read_bytes(
                &mut self.raw,
                worker.0,
                actor.0,
                word,
                first,
                room.as_mut_ptr(),
                count,
            )
        })
    }

    /// Writes bytes into a block, from the byte of an offset on, until a word's Read or Write is
    /// refused. A word that they fill in part is read first, so that it takes both rights.
    pub fn write_bytes(
        &mut self,
        worker: Worker,
        actor: Tenant,
        block: Handle,
        first: u64,
        bytes: &[u8],
    ) -> Progress {
        let (word, count) = (block.to_u64(), bytes.len());
        told::progress(unsafe {
            raw::hg_write_bytes(
                &mut self.raw,
                worker.0,
                actor.0,
                word,
                first,
                bytes.as_ptr(),
                count,
            )
        })
    }

    /// Frees all blocks of the owner that the worker holds and the actor may free, and tells how
    /// many.
    pub fn free_all(
        &mut self,
        worker: Worker,
        actor: Tenant,
        owner: Tenant,
    ) -> Result<u64, Refusal> {
        let call = |core| unsafe { raw::hg_free_all(core, worker.0, actor.0, owner.0) };
        Ok(self.serve(raw::DONE, call)?.value)
    }

    /// How many workers there are.
    pub fn workers(&self) -> u32 {
        // SAFETY: the core is open, and nothing writes it while it is borrowed. So in each question.
        unsafe { raw::hg_workers(&self.raw) }.value as u32
    }

    /// How many segments all arenas have.
    pub fn segments(&self) -> u32 {
        unsafe { raw::hg_segments(&self.raw) }.value as u32
    }

    /// Whether the worker holds the segment.
    pub fn holds(&self, worker: Worker, segment: Segment) -> bool {
        unsafe { raw::hg_holds(&self.raw, worker.0, segment.0) }.value == 1
    }

    /// Who holds the segment, if somebody does.
    pub fn holder(&self, segment: Segment) -> Option<Worker> {
        told::number(unsafe { raw::hg_holder(&self.raw, segment.0) }).map(Worker)
    }

    /// What counts against the tenant's limit with the worker, in bytes; nothing of a worker or a
    /// tenant that isn't there.
    pub fn charge(&self, worker: Worker, tenant: Tenant) -> Option<u64> {
        told::value(unsafe { raw::hg_charge(&self.raw, worker.0, tenant.0) })
    }

    /// The tenant of this name.
    pub fn tenant(&self, name: &str) -> Option<Tenant> {
        told::number(unsafe { raw::hg_tenant(&self.raw, name.as_ptr(), name.len()) }).map(Tenant)
    }

    /// The arena of this name.
    pub fn arena(&self, name: &str) -> Option<Arena> {
        told::number(unsafe { raw::hg_arena(&self.raw, name.as_ptr(), name.len()) }).map(Arena)
    }

    /// The name of a tenant.
    pub fn tenant_name(&self, tenant: Tenant) -> Option<String> {
        let mut room = [0; NAME_ROOM];
        let told =
            unsafe { raw::hg_tenant_name(&self.raw, tenant.0, room.as_mut_ptr(), room.len()) };
        told::name(told, &room)
    }

    /// Makes an event's call, and gives its reply where it has that status. The core is open and
    /// stays so, and is this call's alone meanwhile.
    fn serve(
        &mut self,
        status: u16,
        call: impl FnOnce(*mut RawCore) -> RawReply,
    ) -> Result<RawReply, Refusal> {
        told::served(status, call(&mut self.raw))
    }
}

impl Drop for Core {
    fn drop(&mut self) {
        // SAFETY: the core is this value's alone, and isn't used again.
        unsafe { raw::hg_close(&mut self.raw) };
    }
}

#[cfg(test)]
mod tests {
    use super::*;

    #[test]
    fn crate_and_library_are_of_one_release() {
        let (major, minor, patch) = crate::version();
        let release = format!("{major}.{minor}.{patch}");
        assert_eq!(release, env!("CARGO_PKG_VERSION"));
    }

    #[test]
    fn holders_and_charges_are_told() {
        let policy = "version = 1
            workers = 2
            tenant = [ {name = \"alice\", limit = 64}, {name = \"bob\", limit = 64} ]
            arena = [ {name = \"main\", segments = 2} ]";
        let mut core = Core::open(policy).unwrap();
        core.refill(Worker(1), Arena(0)).unwrap();
        let block = core.alloc(Worker(1), Tenant(0), Arena(0), 20).unwrap();
        assert_eq!(core.holder(Segment(0)), Some(Worker(1)));
        for unheld in [1, 2, 255, 256] {
            assert_eq!(core.holder(Segment(unheld)), None);
        }
        let charge = |core: &Core, worker, tenant| core.charge(Worker(worker), Tenant(tenant));
        assert_eq!(charge(&core, 1, 0), Some(24));
        assert_eq!(charge(&core, 0, 0), Some(0));
        assert_eq!(charge(&core, 1, 1), Some(0));
        assert_eq!((charge(&core, 2, 0), charge(&core, 257, 0)), (None, None));
        assert_eq!((charge(&core, 1, 2), charge(&core, 1, 256)), (None, None));
        core.free(Worker(1), Tenant(0), block).unwrap();
        assert_eq!(charge(&core, 1, 0), Some(0));
        core.abandon(Worker(1), Segment(0)).unwrap();
        assert_eq!(core.holder(Segment(0)), None);
    }

    #[test]
    fn a_core_is_told_in_debug() {
        assert_eq!(
            Core::open("version = 1").unwrap_err().to_string(),
            "policy fault 2: missing workers"
        );
        let policy = "version = 1
            workers = 2
            tenant = []
            arena = [ {name = \"main\", segments = 3} ]";
        let core = Core::open(policy).unwrap();
        assert_eq!(format!("{core:?}"), "Core { workers: 2, segments: 3, .. }");
    }

    #[test]
    fn many_words_and_all_blocks() {
        let policy = "version = 1
            workers = 1
            tenant = [ {name = \"alice\", limit = 640}, {name = \"bob\", limit = 64} ]
            arena = [ {name = \"main\", segments = 1} ]";
        let mut core = Core::open(policy).unwrap();
        let (worker, alice, bob) = (Worker(0), Tenant(0), Tenant(1));
        core.refill(worker, Arena(0)).unwrap();
        let block = core.alloc(worker, alice, Arena(0), 24).unwrap();
        let all = |done| Progress {
            done,
            refused: None,
        };
        assert_eq!(core.write_words(worker, alice, block, 1, &[7, 8]), all(2));
        let mut room = [1; 5];
        let past = core.read_words(worker, alice, block, 0, &mut room);
        assert_eq!((past.done, past.refused), (3, Some(Refusal::OutOfBlock)));
        assert_eq!(room, [0, 7, 8, 1, 1]);
        assert_eq!(core.write_bytes(worker, alice, block, 7, b"heap"), all(4));
        let mut bytes = *b"........";
        let past = core.read_bytes(worker, alice, block, 18, &mut bytes);
        assert_eq!((past.done, past.refused), (6, Some(Refusal::OutOfBlock)));
        assert_eq!(&bytes, b"\0\0\0\0\0\0..");
        let far = core.read_bytes(worker, alice, block, (1 << 32) + 6, &mut bytes);
        assert_eq!((far.done, far.refused), (0, Some(Refusal::OutOfBlock)));
        assert_eq!(core.read_bytes(worker, alice, block, 6, &mut bytes), all(8));
        assert_eq!(&bytes, b"\0heap\0\0\0");
        let denied = core.write_words(worker, bob, block, 0, &room);
        assert_eq!(denied.refused, Some(Refusal::Denied(Rule::NotGranted)));
        core.alloc(worker, alice, Arena(0), 8).unwrap();
        assert_eq!(core.free_all(worker, bob, alice), Ok(0));
        assert_eq!(core.free_all(worker, alice, alice), Ok(2));
        assert_eq!(core.charge(worker, alice), Some(0));
    }

    #[test]
    fn threads_ask_at_once() {
        let policy = "version = 1
            workers = 2
            tenant = [ {name = \"alice\", limit = 64}, {name = \"bob\", limit = 64} ]
            arena = [ {name = \"main\", segments = 1} ]";
        let mut core = Core::open(policy).unwrap();
        core.refill(Worker(1), Arena(0)).unwrap();
        let ask = || {
            for _ in 0..10_000 {
                assert_eq!((core.workers(), core.segments()), (2, 1));
                assert_eq!(core.tenant("bob"), Some(Tenant(1)));
                assert_eq!(core.arena("attic"), None);
                assert_eq!(core.tenant_name(Tenant(0)).as_deref(), Some("alice"));
                assert!(core.holds(Worker(1), Segment(0)) && !core.holds(Worker(0), Segment(0)));
                assert_eq!(core.holder(Segment(0)), Some(Worker(1)));
                assert_eq!(core.charge(Worker(1), Tenant(0)), Some(0));
            }
        };
        std::thread::scope(|threads| {
            for _ in 0..4 {
                threads.spawn(ask);
            }
        });
        core.alloc(Worker(1), Tenant(1), Arena(0), 8).unwrap();
    }
}
