//! A bank of services, and its workers, each for one thread.

use crate::raw::{self, RawBank, RawBankService, RawBankWorker, RawReply};
use crate::{
    told, Arena, Bank, BankHandle, CoreNumber, Freed, OpenError, Place, Refusal, Row, Segment,
    Tenant, Worker, LINE_ROOM,
};
use std::fmt;

/// As many segments as a core may have.
const SEGMENTS: u32 = 64;

/// A bank of services that is open: what a bank is, served by several threads at once. It gives its
/// [workers](BankService::worker), one a thread, and becomes a [`Bank`] once they have left. Dropped, it
/// is given up, and its workers go on.
///
/// ```
/// use heapguard::{BankService, Refusal, Worker};
///
/// let mut service = BankService::open(
///     "version = 1
///      workers = 2
///      tenant = [ {name = \"alice\", limit = 200000} ]
///      arena = [ {name = \"main\", segments = 1} ]",
///     3,
/// )?;
/// let (alice, main) = (service.tenant("alice").unwrap(), service.arena("main").unwrap());
/// let workers: Vec<_> = (0..2).map(|n| service.worker(Worker(n)).unwrap().unwrap()).collect();
/// std::thread::scope(|threads| {
///     for mut worker in workers {
///         threads.spawn(move || {
///             let block = loop {
///                 match worker.alloc(alice, main, 65536) {
///                     Ok(block) => break block,
///                     // The next segment may be one that the other left, full.
///                     Err(Refusal::NoRoom) => worker.refill(main).unwrap(),
///                     Err(why) => panic!("{why}"),
///                 };
///             };
///             worker.write(alice, block, 1, 42).unwrap();
///             assert_eq!(worker.read(alice, block, 1), Ok(42));
///             worker.leave().unwrap();
///         });
///     }
/// });
/// let bank = service.close().unwrap();
/// assert_eq!((bank.cores(), bank.workers()), (3, 2));
/// # Ok::<(), heapguard::OpenError>(())
/// ```
pub struct BankService {
    raw: RawBankService,
}

/// A worker of a bank of services, for one thread: its calls take no lock. What names a block, a place, a
/// segment or a hand names its core too. Deliver, take, refill and abandon ask again where another call has
/// what they need. Dropped, it is given up with all that it holds, and its bank of services closes no more:
/// [leave](BankWorker::leave) it in place of that.
#[must_use = "a worker that is dropped keeps its bank of services from closing"]
pub struct BankWorker {
    raw: RawBankWorker,
}

// SAFETY: crates/hg_bank_service_ffi proves `Send` of the type behind these fields.
unsafe impl Send for BankService {}
// SAFETY: so it does of these.
unsafe impl Send for BankWorker {}

/// Why a bank of services doesn't close.
#[derive(Clone, Copy, Debug, PartialEq, Eq)]
#[non_exhaustive]
pub enum BankNotClosed {
    /// The highest core that hasn't closed, and the lowest worker that hasn't left it.
    StillOut(CoreNumber, Worker),
    /// The highest core that hasn't closed, and the lowest segment that is held there.
    StillHeld(CoreNumber, Segment),
    /// Another call has what one of its workers puts back.
    Again,
    NoMemory,
    /// A status that this crate doesn't know, of a later library.
    Other(u16),
}

impl fmt::Display for BankNotClosed {
    fn fmt(&self, f: &mut fmt::Formatter<'_>) -> fmt::Result {
        match self {
            BankNotClosed::StillOut(core, worker) => {
                write!(f, "worker {} hasn't left core {}", worker.0, core.0)
            }
            BankNotClosed::StillHeld(core, segment) => {
                write!(f, "segment {} of core {} is held", segment.0, core.0)
            }
            BankNotClosed::Again => f.write_str("again"),
            BankNotClosed::NoMemory => f.write_str("no memory"),
            BankNotClosed::Other(status) => write!(f, "status {status}"),
        }
    }
}

impl std::error::Error for BankNotClosed {}

/// A bank of services that didn't close.
#[derive(Debug)]
pub enum BankUnclosed {
    /// It goes on, for this reason.
    Running(BankService, BankNotClosed),
    /// The core and the lowest place there that isn't accounted for, which no use of this crate is meant
    /// to bring. The bank of services is gone.
    Lost(CoreNumber, Place),
}

impl fmt::Display for BankUnclosed {
    fn fmt(&self, f: &mut fmt::Formatter<'_>) -> fmt::Result {
        match self {
            BankUnclosed::Running(_, why) => why.fmt(f),
            BankUnclosed::Lost(core, place) => {
                write!(f, "place {} of core {} is lost", place.number(), core.0)
            }
        }
    }
}

impl std::error::Error for BankUnclosed {}

/// A worker that didn't leave, and the first call that wasn't served.
#[derive(Debug)]
pub struct BankNotLeft {
    pub worker: BankWorker,
    pub why: Refusal,
}

impl fmt::Display for BankNotLeft {
    fn fmt(&self, f: &mut fmt::Formatter<'_>) -> fmt::Result {
        self.why.fmt(f)
    }
}

impl std::error::Error for BankNotLeft {}

impl fmt::Debug for BankService {
    fn fmt(&self, f: &mut fmt::Formatter<'_>) -> fmt::Result {
        f.debug_struct("BankService").finish_non_exhaustive()
    }
}

impl fmt::Debug for BankWorker {
    fn fmt(&self, f: &mut fmt::Formatter<'_>) -> fmt::Result {
        f.debug_struct("BankWorker").finish_non_exhaustive()
    }
}

impl BankService {
    /// Opens a bank of services by the text of its policy with so many cores, 1 to 16,384, and with all
    /// of its workers.
    pub fn open(policy: &str, cores: u32) -> Result<BankService, OpenError> {
        let mut raw = RawBankService::closed();
        let mut room = [0; LINE_ROOM];
        // SAFETY: the bank of services is closed and this call's alone; pointers and lengths are those
        // of slices that are borrowed for the call.
        let reply = unsafe {
            raw::hg_bank_service_open(
                &mut raw,
                policy.as_ptr(),
                policy.len(),
                cores,
                room.as_mut_ptr(),
                room.len(),
            )
        };
        if reply.status == raw::DONE {
            return Ok(BankService { raw });
        }
        Err(OpenError::of(reply.status, &room[..reply.value as usize]))
    }

    /// Gives the worker of a number: none where the policy lacks it, it was given, or it has left; the
    /// error is want of memory.
    pub fn worker(&mut self, number: Worker) -> Result<Option<BankWorker>, Refusal> {
        let mut raw = RawBankWorker::none();
        // SAFETY: the bank of services is open and this call's alone, and no worker stands in the room.
        let reply = unsafe { raw::hg_bank_service_worker(&mut self.raw, number.0, &mut raw) };
        match (reply.status, Refusal::of(reply)) {
            (raw::DONE, _) => Ok(Some(BankWorker { raw })),
            (_, Refusal::NoWorker) => Ok(None),
            (_, why) => Err(why),
        }
    }

    /// The bank of services becomes a bank, once each worker that it gave has left. Those that it didn't
    /// give leave by the first such call, and aren't given any more. Its cores close from the highest
    /// down, and what is closed stays so. What comes back with an error is given up where that is let go;
    /// after [`BankNotClosed::NoMemory`] close it again before all else, since its bank may wait for
    /// memory.
    pub fn close(mut self) -> Result<Bank, BankUnclosed> {
        let mut raw = RawBank::closed();
        // SAFETY: the bank of services is open and this call's alone, and no bank stands in the room.
        let reply = unsafe { raw::hg_bank_service_close(&mut self.raw, &mut raw) };
        let (core, number) = (CoreNumber(reply.detail), reply.value as u32);
        let why = match reply.status {
            raw::DONE => return Ok(Bank { raw }),
            raw::LOST => return Err(BankUnclosed::Lost(core, Place::of(number))),
            raw::STILL_OUT => BankNotClosed::StillOut(core, Worker(number)),
            raw::STILL_HELD => BankNotClosed::StillHeld(core, Segment(number)),
            raw::AGAIN => BankNotClosed::Again,
            raw::NO_MEMORY => BankNotClosed::NoMemory,
            other => BankNotClosed::Other(other),
        };
        Err(BankUnclosed::Running(self, why))
    }

    /// How many cores it has.
    pub fn cores(&mut self) -> u32 {
        // SAFETY: the bank of services is this call's alone. So in each question.
        unsafe { raw::hg_bank_service_cores(&mut self.raw) }.value as u32
    }

    /// How many workers there are.
    pub fn workers(&mut self) -> u32 {
        unsafe { raw::hg_bank_service_workers(&mut self.raw) }.value as u32
    }

    /// How many segments each core has, in all arenas.
    pub fn segments(&mut self) -> u32 {
        unsafe { raw::hg_bank_service_segments(&mut self.raw) }.value as u32
    }

    /// The tenant of this name.
    pub fn tenant(&mut self, name: &str) -> Option<Tenant> {
        let told = unsafe { raw::hg_bank_service_tenant(&mut self.raw, name.as_ptr(), name.len()) };
        told::number(told).map(Tenant)
    }

    /// The arena of this name.
    pub fn arena(&mut self, name: &str) -> Option<Arena> {
        let told = unsafe { raw::hg_bank_service_arena(&mut self.raw, name.as_ptr(), name.len()) };
        told::number(told).map(Arena)
    }
}

impl Drop for BankService {
    fn drop(&mut self) {
        // SAFETY: the bank of services is this value's alone, and isn't used again.
        unsafe { raw::hg_bank_service_drop(&mut self.raw) };
    }
}

impl BankWorker {
    /// Asks for a block of so many bytes, 65,536 at most, whose words are 0, in the first core with room
    /// from the current one of the arena on, round and round. That one is current from then on. A limit
    /// counts over all cores.
    pub fn alloc(
        &mut self,
        actor: Tenant,
        arena: Arena,
        bytes: u64,
    ) -> Result<BankHandle, Refusal> {
        let call = |worker| unsafe { raw::hg_bank_worker_alloc(worker, actor.0, arena.0, bytes) };
        let reply = self.serve(raw::BLOCK, call)?;
        Ok(BankHandle {
            core: CoreNumber(reply.detail),
            handle: told::handle(reply)?,
        })
    }

    /// Frees a block, whoever holds its segment.
    pub fn free(&mut self, actor: Tenant, block: BankHandle) -> Result<Freed, Refusal> {
        told::freed(unsafe { raw::hg_bank_worker_free(&mut self.raw, actor.0, block.raw()) })
    }

    /// Sends what is in hand in a core to those who hold its segment there. A worker has a hand in each
    /// core.
    pub fn deliver(&mut self, core: CoreNumber) -> Result<(), Refusal> {
        let call = |worker| unsafe { raw::hg_bank_worker_deliver(worker, core.0) };
        self.serve_now(raw::DONE, call).map(drop)
    }

    /// Takes home what was sent to a segment of a core that it holds, and tells how many places came.
    pub fn take(&mut self, core: CoreNumber, segment: Segment) -> Result<u64, Refusal> {
        let call = |worker| unsafe { raw::hg_bank_worker_take(worker, core.0, segment.0) };
        Ok(self.serve_now(raw::TAKEN, call)?.value)
    }

    /// Takes the class from each of its pages in a core that has no block, and tells from how many; 0 of
    /// a core that isn't there.
    pub fn collect(&mut self, core: CoreNumber) -> Result<u64, Refusal> {
        let call = |worker| unsafe { raw::hg_bank_worker_collect(worker, core.0) };
        Ok(self.serve(raw::PAGES, call)?.value)
    }

    /// Reads a word of a block of a segment that it holds.
    pub fn read(&mut self, actor: Tenant, block: BankHandle, index: u32) -> Result<u64, Refusal> {
        let block = block.raw();
        let call = |worker| unsafe { raw::hg_bank_worker_read(worker, actor.0, block, index) };
        Ok(self.serve(raw::VALUE, call)?.value)
    }

    /// Writes a word of a block of a segment that it holds.
    pub fn write(
        &mut self,
        actor: Tenant,
        block: BankHandle,
        index: u32,
        value: u64,
    ) -> Result<(), Refusal> {
        let block = block.raw();
        let call =
            |worker| unsafe { raw::hg_bank_worker_write(worker, actor.0, block, index, value) };
        self.serve(raw::DONE, call).map(drop)
    }

    /// Looks at the block that stands at a place of a segment of a core that it holds. The row's handle
    /// is that of the block in this core.
    pub fn look(&mut self, actor: Tenant, core: CoreNumber, place: Place) -> Result<Row, Refusal> {
        let number = place.number();
        told::row(unsafe { raw::hg_bank_worker_look(&mut self.raw, actor.0, core.0, number) })
    }

    /// Gives up a segment of a core that it holds.
    pub fn abandon(&mut self, core: CoreNumber, segment: Segment) -> Result<(), Refusal> {
        let call = |worker| unsafe { raw::hg_bank_worker_abandon(worker, core.0, segment.0) };
        self.serve_now(raw::DONE, call).map(drop)
    }

    /// Takes a segment of an arena that nobody holds, in the first core that has one from the current one
    /// on, and tells which. That core is current from then on.
    pub fn refill(&mut self, arena: Arena) -> Result<(CoreNumber, Segment), Refusal> {
        let call = |worker| unsafe { raw::hg_bank_worker_refill(worker, arena.0) };
        let reply = self.serve_now(raw::REFILLED, call)?;
        Ok((CoreNumber(reply.detail), Segment(reply.value as u32)))
    }

    /// As `deliver`, asked once: [`Refusal::Again`] where another call has the list. So the next three.
    pub fn try_deliver(&mut self, core: CoreNumber) -> Result<(), Refusal> {
        let call = |worker| unsafe { raw::hg_bank_worker_deliver(worker, core.0) };
        self.serve(raw::DONE, call).map(drop)
    }

    /// As `take`, asked once.
    pub fn try_take(&mut self, core: CoreNumber, segment: Segment) -> Result<u64, Refusal> {
        let call = |worker| unsafe { raw::hg_bank_worker_take(worker, core.0, segment.0) };
        Ok(self.serve(raw::TAKEN, call)?.value)
    }

    /// As `abandon`, asked once.
    pub fn try_abandon(&mut self, core: CoreNumber, segment: Segment) -> Result<(), Refusal> {
        let call = |worker| unsafe { raw::hg_bank_worker_abandon(worker, core.0, segment.0) };
        self.serve(raw::DONE, call).map(drop)
    }

    /// As `refill`, asked once.
    pub fn try_refill(&mut self, arena: Arena) -> Result<(CoreNumber, Segment), Refusal> {
        let call = |worker| unsafe { raw::hg_bank_worker_refill(worker, arena.0) };
        let reply = self.serve(raw::REFILLED, call)?;
        Ok((CoreNumber(reply.detail), Segment(reply.value as u32)))
    }

    /// The blocks that it holds in a core and the actor may list, by rising places; the error is want of
    /// memory. The rows' handles are those of the blocks in this core.
    pub fn list(&mut self, core: CoreNumber, actor: Tenant) -> Result<Vec<Row>, Refusal> {
        let mut room = Vec::new();
        loop {
            let count = room.len();
            let call = |worker| unsafe {
                raw::hg_bank_worker_list(worker, core.0, actor.0, room.as_mut_ptr(), count)
            };
            let all = self.serve(raw::DONE, call)?.value as usize;
            if all <= count {
                room.truncate(all);
                return room.into_iter().map(told::row).collect();
            }
            room.resize(
                all,
                RawReply {
                    status: 0,
                    owner: 0,
                    detail: 0,
                    value: 0,
                },
            );
        }
    }

    /// Its number.
    pub fn number(&mut self) -> Worker {
        // SAFETY: the worker is this call's alone. So in each question.
        Worker(unsafe { raw::hg_bank_worker_number(&mut self.raw) }.value as u32)
    }

    /// How many cores it has.
    pub fn cores(&mut self) -> u32 {
        unsafe { raw::hg_bank_worker_cores(&mut self.raw) }.value as u32
    }

    /// Whether it holds the segment of a core.
    pub fn holds(&mut self, core: CoreNumber, segment: Segment) -> bool {
        unsafe { raw::hg_bank_worker_holds(&mut self.raw, core.0, segment.0) }.value == 1
    }

    /// The place of the block in its hand in a core.
    pub fn hand(&mut self, core: CoreNumber) -> Option<Place> {
        told::number(unsafe { raw::hg_bank_worker_hand(&mut self.raw, core.0) }).map(Place::of)
    }

    /// What counts against the tenant's limit with it over all cores, in bytes; nothing of a tenant that
    /// isn't there.
    pub fn charge(&mut self, tenant: Tenant) -> Option<u64> {
        told::value(unsafe { raw::hg_bank_worker_charge(&mut self.raw, tenant.0) })
    }

    /// Sends what is in hand and gives up each segment that it holds, in each core, and goes back to its
    /// bank of services. The worker that comes back with an error is dropped where that is let go.
    pub fn leave(mut self) -> Result<(), BankNotLeft> {
        match self.empty_out() {
            Ok(()) => Ok(()),
            Err(why) => Err(BankNotLeft { worker: self, why }),
        }
    }

    fn empty_out(&mut self) -> Result<(), Refusal> {
        for core in (0..self.cores()).map(CoreNumber) {
            match self.deliver(core) {
                Ok(()) | Err(Refusal::NothingInHand) => {}
                Err(why) => return Err(why),
            }
            for segment in (0..SEGMENTS).map(Segment) {
                if self.holds(core, segment) {
                    self.abandon(core, segment)?;
                }
            }
        }
        loop {
            // SAFETY: the worker is this call's alone.
            let told = unsafe { raw::hg_bank_worker_leave(&mut self.raw) };
            match told.status {
                raw::DONE => return Ok(()),
                raw::AGAIN => std::thread::yield_now(),
                _ => return Err(Refusal::of(told)),
            }
        }
    }

    /// Makes a call, and gives its reply where it has that status. The worker is there and stays so,
    /// and is this call's alone meanwhile.
    fn serve(
        &mut self,
        status: u16,
        call: impl FnOnce(*mut RawBankWorker) -> RawReply,
    ) -> Result<RawReply, Refusal> {
        told::served(status, call(&mut self.raw))
    }

    /// The same, again and again where another call has what it needs.
    fn serve_now(
        &mut self,
        status: u16,
        call: impl Fn(*mut RawBankWorker) -> RawReply,
    ) -> Result<RawReply, Refusal> {
        loop {
            let told = call(&mut self.raw);
            if told.status != raw::AGAIN {
                return told::served(status, told);
            }
            std::thread::yield_now();
        }
    }
}

impl Drop for BankWorker {
    fn drop(&mut self) {
        // SAFETY: the worker is this value's alone, and isn't used again. One that has left is none.
        unsafe { raw::hg_bank_worker_drop(&mut self.raw) };
    }
}

#[cfg(test)]
mod tests {
    use super::*;
    use crate::Rule;
    use std::thread;

    const POLICY: &str = "version = 1
        workers = 2
        tenant = [ {name = \"alice\", limit = 200000}, {name = \"bob\", limit = 64} ]
        arena = [ {name = \"main\", segments = 1} ]";

    const ALICE: Tenant = Tenant(0);
    const BOB: Tenant = Tenant(1);
    const MAIN: Arena = Arena(0);

    /// Three cores, and two workers.
    fn opened() -> (BankService, BankWorker, BankWorker) {
        let mut service = BankService::open(POLICY, 3).unwrap();
        let mut worker = |n| service.worker(Worker(n)).unwrap().unwrap();
        let (one, two) = (worker(0), worker(1));
        (service, one, two)
    }

    #[test]
    fn it_opens_with_so_many_cores() {
        let (mut service, mut one, mut two) = opened();
        assert_eq!((one.number(), two.number()), (Worker(0), Worker(1)));
        assert_eq!((one.cores(), service.cores()), (3, 3));
        assert_eq!((service.workers(), service.segments()), (2, 1));
        assert_eq!(service.tenant("bob"), Some(BOB));
        assert_eq!(
            (service.tenant("eve"), service.arena("main")),
            (None, Some(MAIN))
        );
        for gone in [0, 1, 2, 256, u32::MAX] {
            assert!(service.worker(Worker(gone)).unwrap().is_none());
        }
        for many in [0, 16_385, 65_537, u32::MAX] {
            assert!(
                matches!(BankService::open(POLICY, many), Err(OpenError::NoCount)),
                "{many}"
            );
        }
        let fault = BankService::open("version = 1", 1).unwrap_err();
        assert_eq!(fault.to_string(), "policy fault 2: missing workers");
    }

    #[test]
    fn cores_are_asked_round_and_round() {
        let (_service, mut one, mut two) = opened();
        for core in 0..3 {
            assert_eq!(one.alloc(ALICE, MAIN, 65_536), Err(Refusal::NoRoom));
            assert_eq!(one.refill(MAIN), Ok((CoreNumber(core), Segment(0))));
            let whole = one.alloc(ALICE, MAIN, 65_536).unwrap();
            assert_eq!(whole.core, CoreNumber(core));
            assert!(
                one.holds(CoreNumber(core), Segment(0)) && !two.holds(CoreNumber(core), Segment(0))
            );
        }
        assert_eq!(one.try_refill(MAIN), Err(Refusal::NoSegment));
        assert_eq!(one.charge(ALICE), Some(3 * 65_536));
        assert_eq!(
            (one.charge(BOB), one.charge(Tenant(2)), two.charge(ALICE)),
            (Some(0), None, Some(0))
        );
        assert_eq!(
            one.alloc(ALICE, MAIN, 4096),
            Err(Refusal::Denied(Rule::OverLimit))
        );
    }

    #[test]
    fn what_one_frees_of_the_other_comes_home() {
        let (service, mut one, mut two) = opened();
        one.refill(MAIN).unwrap();
        one.alloc(ALICE, MAIN, 65_536).unwrap();
        let (core, held) = one.refill(MAIN).unwrap();
        let block = one.alloc(ALICE, MAIN, 24).unwrap();
        assert_eq!((core, block.core), (CoreNumber(1), CoreNumber(1)));
        assert_eq!(one.write(ALICE, block, 2, 7), Ok(()));
        assert_eq!(one.read(ALICE, block, 2), Ok(7));
        assert_eq!(
            one.read(BOB, block, 0),
            Err(Refusal::Denied(Rule::NotGranted))
        );
        assert_eq!(two.read(ALICE, block, 0), Err(Refusal::Elsewhere));
        assert_eq!(one.list(core, ALICE).unwrap().len(), 1);
        assert_eq!(one.list(CoreNumber(3), ALICE), Ok(vec![]));
        assert_eq!(
            one.look(ALICE, core, block.handle.place()).unwrap().bytes,
            24
        );
        assert_eq!(two.free(ALICE, block), Ok(Freed::InHand));
        assert_eq!(
            (two.hand(CoreNumber(0)), two.hand(core)),
            (None, Some(block.handle.place()))
        );
        assert_eq!(two.try_deliver(CoreNumber(0)), Err(Refusal::NothingInHand));
        assert_eq!(two.deliver(core), Ok(()));
        assert_eq!(two.try_take(core, held), Err(Refusal::NotHeld));
        assert_eq!(two.try_abandon(core, held), Err(Refusal::NotHeld));
        assert_eq!(one.take(core, held), Ok(1));
        assert_eq!(one.collect(core), Ok(1));
        let (service, why) = match service.close() {
            Err(BankUnclosed::Running(service, why)) => (service, why),
            other => panic!("{other:?}"),
        };
        assert_eq!(why, BankNotClosed::StillOut(CoreNumber(2), Worker(0)));
        assert_eq!(why.to_string(), "worker 0 hasn't left core 2");
        one.leave().unwrap();
        two.leave().unwrap();
        let mut bank = service.close().unwrap();
        assert_eq!((bank.cores(), bank.workers()), (3, 2));
        assert_eq!(
            bank.refill(Worker(1), MAIN),
            Ok((CoreNumber(0), Segment(0)))
        );
    }

    #[test]
    fn threads_serve_and_leave() {
        let (service, one, two) = opened();
        let serve = |mut worker: BankWorker| {
            worker.refill(MAIN).unwrap();
            for round in 0..20_000 {
                let block = worker.alloc(ALICE, MAIN, 40).unwrap();
                worker.write(ALICE, block, 4, round).unwrap();
                assert_eq!(worker.read(ALICE, block, 4), Ok(round));
                assert_eq!(worker.free(ALICE, block), Ok(Freed::Here));
            }
            let last = worker.alloc(ALICE, MAIN, 8).unwrap();
            worker.leave().unwrap();
            last
        };
        let kept = [one, two].map(|worker| thread::spawn(move || serve(worker)));
        let kept = kept.map(|it| it.join().unwrap());
        let mut bank = service.close().unwrap();
        for _ in 0..2 {
            bank.refill(Worker(0), MAIN).unwrap();
        }
        for block in kept {
            assert_eq!(bank.read(Worker(0), ALICE, block, 0), Ok(0));
        }
    }
}
