//! Many cores under one policy.

use crate::raw::{self, RawBank, RawReply};
use crate::told;
use crate::{Arena, BankHandle, CoreNumber, Freed, OpenError, Place, Progress, Refusal, Row};
use crate::{Segment, Tenant, Worker, LINE_ROOM, NAME_ROOM};
use std::fmt;

/// An open bank: up to 16,384 cores under one policy, as one service. It may go to another thread,
/// and several threads may ask it at once: `Send` and `Sync`.
///
/// What names a block, a place, a segment or a hand names its core too. A core that isn't open is
/// answered as a segment that isn't there.
///
/// ```
/// use heapguard::{Bank, CoreNumber, Refusal, Worker};
///
/// let mut bank = Bank::open(
///     "version = 1
///      workers = 1
///      tenant = [ {name = \"alice\", limit = 1000000} ]
///      arena = [ {name = \"main\", segments = 1} ]",
///     256,
/// )?;
/// let (alice, main) = (bank.tenant("alice").unwrap(), bank.arena("main").unwrap());
/// let worker = Worker(0);
/// bank.refill(worker, main).unwrap();
/// let whole = bank.alloc(worker, alice, main, 65536).unwrap();
/// assert_eq!(bank.alloc(worker, alice, main, 8), Err(Refusal::NoRoom));
/// assert_eq!(bank.refill(worker, main), Err(Refusal::NoSegment));
/// assert_eq!(bank.grow(), Ok(CoreNumber(1)));
/// bank.refill(worker, main).unwrap();
/// let block = bank.alloc(worker, alice, main, 8).unwrap();
/// assert_eq!((whole.core, block.core), (CoreNumber(0), CoreNumber(1)));
/// assert_eq!(block.to_string(), "@1/0.0.0.1");
/// bank.write(worker, alice, block, 0, 42).unwrap();
/// assert_eq!(bank.read(worker, alice, block, 0), Ok(42));
/// # Ok::<(), heapguard::OpenError>(())
/// ```
pub struct Bank {
    pub(crate) raw: RawBank,
}

/// How many cores, workers and segments of each core it has, and nothing of what is in them.
impl fmt::Debug for Bank {
    fn fmt(&self, f: &mut fmt::Formatter<'_>) -> fmt::Result {
        f.debug_struct("Bank")
            .field("cores", &self.cores())
            .field("workers", &self.workers())
            .field("segments", &self.segments())
            .finish_non_exhaustive()
    }
}

// SAFETY: crates/hg_ffi proves `Send` of the type behind these fields.
unsafe impl Send for Bank {}

// SAFETY: crates/hg_ffi proves `Sync` of it too, and that what takes `&self` only reads it.
unsafe impl Sync for Bank {}

impl Bank {
    /// Opens a bank by the text of its policy with room for so many cores, 1 to 16,384, of which the
    /// first is open.
    pub fn open(policy: &str, cores: u32) -> Result<Bank, OpenError> {
        let mut raw = RawBank::closed();
        let mut room = [0; LINE_ROOM];
        // SAFETY: the bank is closed and this call's alone; pointers and lengths are those of
        // slices that are borrowed for the call.
        let reply = unsafe {
            raw::hg_bank_open(
                &mut raw,
                policy.as_ptr(),
                policy.len(),
                cores,
                room.as_mut_ptr(),
                room.len(),
            )
        };
        if reply.status == raw::DONE {
            return Ok(Bank { raw });
        }
        Err(OpenError::of(reply.status, &room[..reply.value as usize]))
    }

    /// Opens one core more, and tells its number. Nobody holds a segment of it yet. Where it is
    /// refused the bank is as it was.
    pub fn grow(&mut self) -> Result<CoreNumber, Refusal> {
        let call = |bank| unsafe { raw::hg_bank_grow(bank) };
        Ok(CoreNumber(self.serve(raw::VALUE, call)?.value as u32))
    }

    /// Asks for a block of so many bytes, as [`Core::alloc`](crate::Core::alloc), in the first core
    /// with room from the current one of the worker and the arena on, round and round. That one is
    /// current from then on. A limit counts over all cores.
    pub fn alloc(
        &mut self,
        worker: Worker,
        actor: Tenant,
        arena: Arena,
        bytes: u64,
    ) -> Result<BankHandle, Refusal> {
        let call = |bank| unsafe { raw::hg_bank_alloc(bank, worker.0, actor.0, arena.0, bytes) };
        let reply = self.serve(raw::BLOCK, call)?;
        Ok(BankHandle {
            core: CoreNumber(reply.detail),
            handle: told::handle(reply)?,
        })
    }

    /// Frees a block.
    pub fn free(
        &mut self,
        worker: Worker,
        actor: Tenant,
        block: BankHandle,
    ) -> Result<Freed, Refusal> {
        let call = |bank| unsafe { raw::hg_bank_free(bank, worker.0, actor.0, block.raw()) };
        told::freed(call(&mut self.raw))
    }

    /// Sends what the worker has in hand in a core to those who hold its segment. A worker has a
    /// hand in each core.
    pub fn deliver(&mut self, worker: Worker, core: CoreNumber) -> Result<(), Refusal> {
        let call = |bank| unsafe { raw::hg_bank_deliver(bank, worker.0, core.0) };
        self.serve(raw::DONE, call).map(drop)
    }

    /// Takes home what was sent to a segment that the worker holds, and tells how many places came.
    pub fn take(
        &mut self,
        worker: Worker,
        core: CoreNumber,
        segment: Segment,
    ) -> Result<u64, Refusal> {
        let call = |bank| unsafe { raw::hg_bank_take(bank, worker.0, core.0, segment.0) };
        Ok(self.serve(raw::TAKEN, call)?.value)
    }

    /// Takes the class from each of the worker's pages in a core that has no block, and tells from
    /// how many; 0 of a core that isn't open.
    pub fn collect(&mut self, worker: Worker, core: CoreNumber) -> Result<u64, Refusal> {
        let call = |bank| unsafe { raw::hg_bank_collect(bank, worker.0, core.0) };
        Ok(self.serve(raw::PAGES, call)?.value)
    }

    /// Reads a word of a block.
    pub fn read(
        &mut self,
        worker: Worker,
        actor: Tenant,
        block: BankHandle,
        index: u32,
    ) -> Result<u64, Refusal> {
        let call = |bank| unsafe { raw::hg_bank_read(bank, worker.0, actor.0, block.raw(), index) };
        Ok(self.serve(raw::VALUE, call)?.value)
    }

    /// Writes a word of a block.
    pub fn write(
        &mut self,
        worker: Worker,
        actor: Tenant,
        block: BankHandle,
        index: u32,
        value: u64,
    ) -> Result<(), Refusal> {
        let block = block.raw();
        let call =
            |bank| unsafe { raw::hg_bank_write(bank, worker.0, actor.0, block, index, value) };
        self.serve(raw::DONE, call).map(drop)
    }

    /// Looks at the block that stands at a place of a core. The row's handle is that of the block in
    /// this core.
    pub fn look(
        &mut self,
        worker: Worker,
        actor: Tenant,
        core: CoreNumber,
        place: Place,
    ) -> Result<Row, Refusal> {
        let call =
            |bank| unsafe { raw::hg_bank_look(bank, worker.0, actor.0, core.0, place.number()) };
        told::row(call(&mut self.raw))
    }

    /// Gives up a segment that the worker holds.
    pub fn abandon(
        &mut self,
        worker: Worker,
        core: CoreNumber,
        segment: Segment,
    ) -> Result<(), Refusal> {
        let call = |bank| unsafe { raw::hg_bank_abandon(bank, worker.0, core.0, segment.0) };
        self.serve(raw::DONE, call).map(drop)
    }

    /// Takes a segment of an arena that nobody holds, in the first core that has one from the
    /// current one on, and tells which. That core is current from then on.
    pub fn refill(
        &mut self,
        worker: Worker,
        arena: Arena,
    ) -> Result<(CoreNumber, Segment), Refusal> {
        let call = |bank| unsafe { raw::hg_bank_refill(bank, worker.0, arena.0) };
        let reply = self.serve(raw::REFILLED, call)?;
        Ok((CoreNumber(reply.detail), Segment(reply.value as u32)))
    }

    /// Reads as many words of a block as the room has, from the word of an index on, until one is
    /// refused.
    pub fn read_words(
        &mut self,
        worker: Worker,
        actor: Tenant,
        block: BankHandle,
        first: u32,
        room: &mut [u64],
    ) -> Progress {
        let (block, count) = (block.raw(), room.len());
        // SAFETY: the bank is open and this call's alone; pointer and length are those of a slice
        // that is borrowed for the call. So in the next.
        told::progress(unsafe {
            raw::hg_bank_read_words(
                &mut self.raw,
                worker.0,
                actor.0,
                block,
                first,
                room.as_mut_ptr(),
                count,
            )
        })
    }

    /// Writes words into a block, from the word of an index on, until one is refused.
    pub fn write_words(
        &mut self,
        worker: Worker,
        actor: Tenant,
        block: BankHandle,
        first: u32,
        words: &[u64],
    ) -> Progress {
        let (block, count) = (block.raw(), words.len());
        told::progress(unsafe {
            raw::hg_bank_write_words(
                &mut self.raw,
                worker.0,
                actor.0,
                block,
                first,
                words.as_ptr(),
                count,
            )
        })
    }

    /// Reads as many bytes of a block as the room has, from the byte of an offset on, until a word's
    /// Read is refused. Eight lie in a word, the least first.
    pub fn read_bytes(
        &mut self,
        worker: Worker,
        actor: Tenant,
        block: BankHandle,
        first: u64,
        room: &mut [u8],
    ) -> Progress {
        let (block, count) = (block.raw(), room.len());
        // SAFETY: the bank is open and this call's alone; pointer and length are those of a slice
        // that is borrowed for the call. So in the next.
        told::progress(unsafe {
            raw::hg_bank_read_bytes(
                &mut self.raw,
                worker.0,
                actor.0,
                block,
                first,
                room.as_mut_ptr(),
                count,
            )
        })
    }

    /// Writes bytes into a block, from the byte of an offset on, until a word's Read or Write is
    /// refused. A word that they fill in part is read first, so that it takes both rights.
    pub fn write_bytes(
        &mut self,
        worker: Worker,
        actor: Tenant,
        block: BankHandle,
        first: u64,
        bytes: &[u8],
    ) -> Progress {
        let (block, count) = (block.raw(), bytes.len());
        told::progress(unsafe {
            raw::hg_bank_write_bytes(
                &mut self.raw,
                worker.0,
                actor.0,
                block,
                first,
                bytes.as_ptr(),
                count,
            )
        })
    }

    /// Frees all blocks of the owner in one core that the worker holds and the actor may free, and
    /// tells how many.
    pub fn free_all(
        &mut self,
        worker: Worker,
        actor: Tenant,
        core: CoreNumber,
        owner: Tenant,
    ) -> Result<u64, Refusal> {
        let call =
            |bank| unsafe { raw::hg_bank_free_all(bank, worker.0, actor.0, core.0, owner.0) };
        Ok(self.serve(raw::DONE, call)?.value)
    }

    /// How many cores are open.
    pub fn cores(&self) -> u32 {
        // SAFETY: the bank is open, and nothing writes it while it is borrowed. So in each question.
        unsafe { raw::hg_bank_cores(&self.raw) }.value as u32
    }

    /// How many workers there are.
    pub fn workers(&self) -> u32 {
        unsafe { raw::hg_bank_workers(&self.raw) }.value as u32
    }

    /// How many segments each core has, in all arenas.
    pub fn segments(&self) -> u32 {
        unsafe { raw::hg_bank_segments(&self.raw) }.value as u32
    }

    /// Whether the worker holds the segment.
    pub fn holds(&self, worker: Worker, core: CoreNumber, segment: Segment) -> bool {
        unsafe { raw::hg_bank_holds(&self.raw, worker.0, core.0, segment.0) }.value == 1
    }

    /// Who holds the segment, if somebody does.
    pub fn holder(&self, core: CoreNumber, segment: Segment) -> Option<Worker> {
        told::number(unsafe { raw::hg_bank_holder(&self.raw, core.0, segment.0) }).map(Worker)
    }

    /// What counts against the tenant's limit with the worker over all cores, in bytes; nothing of a
    /// worker or a tenant that isn't there.
    pub fn charge(&self, worker: Worker, tenant: Tenant) -> Option<u64> {
        told::value(unsafe { raw::hg_bank_charge(&self.raw, worker.0, tenant.0) })
    }

    /// The tenant of this name.
    pub fn tenant(&self, name: &str) -> Option<Tenant> {
        let told = unsafe { raw::hg_bank_tenant(&self.raw, name.as_ptr(), name.len()) };
        told::number(told).map(Tenant)
    }

    /// The arena of this name.
    pub fn arena(&self, name: &str) -> Option<Arena> {
        let told = unsafe { raw::hg_bank_arena(&self.raw, name.as_ptr(), name.len()) };
        told::number(told).map(Arena)
    }

    /// The name of a tenant.
    pub fn tenant_name(&self, tenant: Tenant) -> Option<String> {
        let mut room = [0; NAME_ROOM];
        let told =
            unsafe { raw::hg_bank_tenant_name(&self.raw, tenant.0, room.as_mut_ptr(), room.len()) };
        told::name(told, &room)
    }

    /// Makes an event's call, and gives its reply where it has that status. The bank is open and
    /// stays so, and is this call's alone meanwhile.
    fn serve(
        &mut self,
        status: u16,
        call: impl FnOnce(*mut RawBank) -> RawReply,
    ) -> Result<RawReply, Refusal> {
        told::served(status, call(&mut self.raw))
    }
}

impl Drop for Bank {
    fn drop(&mut self) {
        // SAFETY: the bank is this value's alone, and isn't used again.
        unsafe { raw::hg_bank_close(&mut self.raw) };
    }
}

#[cfg(test)]
mod tests {
    use super::*;
    use crate::Rule;

    const POLICY: &str = r#"version = 1
workers = 2
tenant = [ {name = "alice", limit = 131072}, {name = "bob", limit = 64} ]
arena = [ {name = "main", segments = 1} ]
"#;

    const ALICE: Tenant = Tenant(0);
    const BOB: Tenant = Tenant(1);
    const MAIN: Arena = Arena(0);

    /// A bank of three cores, with room for no more.
    fn three() -> Bank {
        let mut bank = Bank::open(POLICY, 3).unwrap();
        assert_eq!(bank.grow(), Ok(CoreNumber(1)));
        assert_eq!(bank.grow(), Ok(CoreNumber(2)));
        bank
    }

    #[test]
    fn a_bank_opens_with_one_core_and_grows() {
        let mut bank = three();
        assert_eq!(bank.grow(), Err(Refusal::Full));
        assert_eq!(Refusal::Full.to_string(), "full");
        assert_eq!((bank.cores(), bank.workers(), bank.segments()), (3, 2, 1));
        let told = "Bank { cores: 3, workers: 2, segments: 1, .. }";
        assert_eq!(format!("{bank:?}"), told);
    }

    #[test]
    fn what_opens_no_bank_is_told() {
        for none in [0, 16_385, u32::MAX] {
            let refused = Bank::open(POLICY, none).unwrap_err();
            assert_eq!(refused, OpenError::NoCount);
            assert_eq!(refused.to_string(), "no bank of so many cores");
        }
        assert_eq!(Bank::open(POLICY, 16_384).unwrap().cores(), 1);
        let fault = Bank::open("version = 1", 1).unwrap_err();
        assert_eq!(fault.to_string(), "policy fault 2: missing workers");
    }

    #[test]
    fn cores_are_taken_in_turn_and_a_limit_counts_over_all() {
        let mut bank = three();
        let worker = Worker(0);
        let taken = (0..3).map(|_| bank.refill(worker, MAIN).unwrap());
        let cores: Vec<u32> = taken.map(|(core, _)| core.0).collect();
        assert_eq!(cores, [0, 1, 2]);
        assert_eq!(bank.refill(worker, MAIN), Err(Refusal::NoSegment));
        let last = bank.alloc(worker, ALICE, MAIN, 65536).unwrap();
        let first = bank.alloc(worker, ALICE, MAIN, 65536).unwrap();
        assert_eq!((last.core, first.core), (CoreNumber(2), CoreNumber(0)));
        assert_eq!(last.handle, first.handle);
        assert_ne!(last, first);
        let limit = Err(Refusal::Denied(Rule::OverLimit));
        assert_eq!(bank.alloc(worker, ALICE, MAIN, 8), limit);
        assert_eq!(bank.charge(worker, ALICE), Some(131_072));
        assert_eq!(bank.free(worker, ALICE, last), Ok(Freed::Here));
        assert_eq!(bank.charge(worker, ALICE), Some(65_536));
        assert_eq!(bank.charge(Worker(2), ALICE), None);
        assert_eq!(bank.charge(worker, Tenant(2)), None);
    }

    #[test]
    fn a_worker_has_a_hand_in_each_core() {
        let mut bank = three();
        let (one, other) = (Worker(0), Worker(1));
        let mut blocks = Vec::new();
        for _ in 0..3 {
            let (core, segment) = bank.refill(one, MAIN).unwrap();
            assert_eq!(bank.holder(core, segment), Some(one));
            assert!(bank.holds(one, core, segment) && !bank.holds(other, core, segment));
            let block = bank.alloc(one, ALICE, MAIN, 8).unwrap();
            assert_eq!(block.core, core);
            bank.write(one, ALICE, block, 0, 7).unwrap();
            blocks.push(block);
        }
        for &block in &blocks {
            assert_eq!(bank.read(other, ALICE, block, 0), Err(Refusal::Elsewhere));
            assert_eq!(bank.read(one, ALICE, block, 0), Ok(7));
            let denied = Err(Refusal::Denied(Rule::NotGranted));
            assert_eq!(bank.read(one, BOB, block, 0), denied);
            assert_eq!(bank.free(other, ALICE, block), Ok(Freed::InHand));
        }
        for &block in &blocks {
            bank.deliver(other, block.core).unwrap();
            assert_eq!(bank.deliver(other, block.core), Err(Refusal::NothingInHand));
            assert_eq!(bank.take(one, block.core, Segment(0)), Ok(1));
            assert_eq!(bank.collect(one, block.core), Ok(1));
            let freed = Err(Refusal::Denied(Rule::AlreadyFreed));
            assert_eq!(bank.read(one, ALICE, block, 0), freed);
        }
        assert_eq!(bank.charge(one, ALICE), Some(0));
    }

    #[test]
    fn many_words_and_all_blocks_of_a_core() {
        let mut bank = three();
        let worker = Worker(0);
        let all = |done| Progress {
            done,
            refused: None,
        };
        for core in 0..2 {
            bank.refill(worker, MAIN).unwrap();
            let block = bank.alloc(worker, ALICE, MAIN, 24).unwrap();
            assert_eq!(block.core, CoreNumber(core));
            let words = [7, u64::from(core)];
            assert_eq!(bank.write_words(worker, ALICE, block, 1, &words), all(2));
            let mut room = [1; 5];
            let past = bank.read_words(worker, ALICE, block, 0, &mut room);
            assert_eq!((past.done, past.refused), (3, Some(Refusal::OutOfBlock)));
            assert_eq!(room, [0, 7, u64::from(core), 1, 1]);
            assert_eq!(bank.write_bytes(worker, ALICE, block, 7, b"bank"), all(4));
            let mut bytes = [9; 6];
            assert_eq!(bank.read_bytes(worker, ALICE, block, 6, &mut bytes), all(6));
            assert_eq!(&bytes, b"\0bank\0");
            let denied = bank.write_words(worker, BOB, block, 0, &room);
            assert_eq!(denied.refused, Some(Refusal::Denied(Rule::NotGranted)));
        }
        let free_all =
            |bank: &mut Bank, actor, core| bank.free_all(worker, actor, CoreNumber(core), ALICE);
        assert_eq!(free_all(&mut bank, BOB, 0), Ok(0));
        assert_eq!(free_all(&mut bank, ALICE, 1), Ok(1));
        assert_eq!(bank.charge(worker, ALICE), Some(24));
        assert_eq!(free_all(&mut bank, ALICE, 3), Ok(0));
        assert_eq!(free_all(&mut bank, ALICE, 0), Ok(1));
        assert_eq!(bank.charge(worker, ALICE), Some(0));
    }

    #[test]
    fn a_row_is_of_a_core() {
        let mut bank = three();
        let worker = Worker(1);
        bank.refill(worker, MAIN).unwrap();
        bank.refill(worker, MAIN).unwrap();
        let block = bank.alloc(worker, ALICE, MAIN, 20).unwrap();
        let place = block.handle.place();
        let row = bank.look(worker, ALICE, CoreNumber(1), place).unwrap();
        assert_eq!(block.core, CoreNumber(1));
        assert_eq!(
            (row.handle, row.owner, row.bytes),
            (block.handle, ALICE, 24)
        );
        let stale = Err(Refusal::Denied(Rule::Stale { generation: 0 }));
        assert_eq!(bank.look(worker, ALICE, CoreNumber(0), place), stale);
        bank.abandon(worker, CoreNumber(1), Segment(0)).unwrap();
        assert_eq!(bank.holder(CoreNumber(1), Segment(0)), None);
        assert_eq!(
            bank.look(worker, ALICE, CoreNumber(1), place),
            Err(Refusal::Elsewhere)
        );
        assert_eq!(
            bank.refill(Worker(0), MAIN),
            Ok((CoreNumber(1), Segment(0)))
        );
    }

    #[test]
    fn no_number_is_another_one() {
        let mut bank = three();
        let worker = Worker(0);
        bank.refill(worker, MAIN).unwrap();
        let block = bank.alloc(worker, ALICE, MAIN, 8).unwrap();
        assert_eq!(
            (bank.tenant("bob"), bank.arena("main")),
            (Some(BOB), Some(MAIN))
        );
        assert_eq!((bank.tenant("eve"), bank.arena("attic")), (None, None));
        assert_eq!(bank.tenant_name(BOB).as_deref(), Some("bob"));
        for wide in [3, 255, 256, 16_384, 65_535, 65_536, u32::MAX] {
            let core = CoreNumber(wide);
            let stale = Refusal::Denied(Rule::Stale { generation: 0 });
            let away = BankHandle { core, ..block };
            assert_eq!(bank.read(worker, ALICE, away, 0), Err(stale));
            assert_eq!(bank.write(worker, ALICE, away, 0, 1), Err(stale));
            assert_eq!(bank.free(worker, ALICE, away), Err(stale));
            assert_eq!(
                bank.look(worker, ALICE, core, block.handle.place()),
                Err(stale)
            );
            let stranger = Err(Refusal::Denied(Rule::Stranger));
            assert_eq!(bank.read(worker, Tenant(wide), away, 0), stranger);
            assert_eq!(bank.deliver(worker, core), Err(Refusal::NothingInHand));
            assert_eq!(bank.take(worker, core, Segment(0)), Err(Refusal::NotHeld));
            assert_eq!(
                bank.abandon(worker, core, Segment(0)),
                Err(Refusal::NotHeld)
            );
            assert_eq!(bank.collect(worker, core), Ok(0));
            assert!(!bank.holds(worker, core, Segment(0)));
            assert_eq!(bank.holder(core, Segment(0)), None);
            let no_worker = Err(Refusal::NoWorker);
            assert_eq!(bank.read(Worker(wide), ALICE, block, 0), no_worker);
            assert_eq!(bank.tenant_name(Tenant(wide)), None);
        }
        assert_eq!(bank.read(worker, ALICE, block, 0), Ok(0));
    }

    #[test]
    fn threads_ask_at_once_and_take_turns() {
        let mut bank = three();
        bank.refill(Worker(1), MAIN).unwrap();
        let ask = || {
            for _ in 0..10_000 {
                assert_eq!((bank.cores(), bank.workers(), bank.segments()), (3, 2, 1));
                assert_eq!(bank.tenant("bob"), Some(BOB));
                assert_eq!(bank.holder(CoreNumber(0), Segment(0)), Some(Worker(1)));
                assert_eq!(bank.charge(Worker(1), ALICE), Some(0));
            }
        };
        std::thread::scope(|threads| {
            for _ in 0..4 {
                threads.spawn(ask);
            }
        });
        let bank = std::sync::Mutex::new(bank);
        std::thread::scope(|threads| {
            for _ in 0..4 {
                threads.spawn(|| {
                    for _ in 0..100 {
                        let mut bank = bank.lock().unwrap();
                        let block = bank.alloc(Worker(1), ALICE, MAIN, 8).unwrap();
                        bank.free(Worker(1), ALICE, block).unwrap();
                    }
                });
            }
        });
        let bank = bank.into_inner().unwrap();
        assert_eq!(bank.charge(Worker(1), ALICE), Some(0));
    }
}
