//! A service, and its workers, each for one thread.

use crate::raw::{self, RawCore, RawReply, RawService, RawWorker};
use crate::{
    told, Arena, Core, Freed, Handle, OpenError, Place, Progress, Refusal, Row, Segment, Tenant,
    Worker, LINE_ROOM,
};
use std::fmt;

/// A service that is open: what a core is, served by several threads at once. It gives its
/// [workers](Service::worker), one a thread, and becomes a [`Core`] once they have left. Dropped, it
/// is given up, and its workers go on.
///
/// ```
/// use heapguard::{Service, Worker};
///
/// let mut service = Service::open(
///     "version = 1
///      workers = 2
///      tenant = [ {name = \"alice\", limit = 8192} ]
///      arena = [ {name = \"main\", segments = 2} ]",
/// )?;
/// let (alice, main) = (service.tenant("alice").unwrap(), service.arena("main").unwrap());
/// let workers: Vec<_> = (0..2).map(|n| service.worker(Worker(n)).unwrap().unwrap()).collect();
/// std::thread::scope(|threads| {
///     for mut worker in workers {
///         threads.spawn(move || {
///             worker.refill(main).unwrap();
///             let block = worker.alloc(alice, main, 24).unwrap();
///             worker.write(alice, block, 1, 42).unwrap();
///             assert_eq!(worker.read(alice, block, 1), Ok(42));
///             worker.leave().unwrap();
///         });
///     }
/// });
/// let core = service.close().unwrap();
/// assert_eq!(core.workers(), 2);
/// # Ok::<(), heapguard::OpenError>(())
/// ```
pub struct Service {
    raw: RawService,
}

/// A worker of a service, for one thread: its calls take no lock. Deliver, take, refill and abandon
/// ask again where another call has what they need. Dropped, it is given up with all that it holds,
/// and its service closes no more: [leave](ServiceWorker::leave) it in place of that.
#[must_use = "a worker that is dropped keeps its service from closing"]
pub struct ServiceWorker {
    raw: RawWorker,
}

// SAFETY: crates/hg_ffi proves `Send` of the type behind these fields.
unsafe impl Send for Service {}
// SAFETY: so it does of these.
unsafe impl Send for ServiceWorker {}

/// Why a service doesn't close.
#[derive(Clone, Copy, Debug, PartialEq, Eq)]
#[non_exhaustive]
pub enum NotClosed {
    /// The lowest worker that hasn't left.
    StillOut(Worker),
    /// The lowest segment that is held.
    StillHeld(Segment),
    /// Another call has what one of its workers puts back.
    Again,
    NoMemory,
    /// A status that this crate doesn't know, of a later library.
    Other(u16),
}

impl fmt::Display for NotClosed {
    fn fmt(&self, f: &mut fmt::Formatter<'_>) -> fmt::Result {
        match self {
            NotClosed::StillOut(worker) => write!(f, "worker {} hasn't left", worker.0),
            NotClosed::StillHeld(segment) => write!(f, "segment {} is held", segment.0),
            NotClosed::Again => f.write_str("again"),
            NotClosed::NoMemory => f.write_str("no memory"),
            NotClosed::Other(status) => write!(f, "status {status}"),
        }
    }
}

impl std::error::Error for NotClosed {}

/// A service that didn't close.
#[derive(Debug)]
pub enum Unclosed {
    /// It goes on, for this reason.
    Running(Service, NotClosed),
    /// The lowest place that isn't accounted for, which no use of this crate is meant to bring. The
    /// service is gone.
    Lost(Place),
}

impl fmt::Display for Unclosed {
    fn fmt(&self, f: &mut fmt::Formatter<'_>) -> fmt::Result {
        match self {
            Unclosed::Running(_, why) => why.fmt(f),
            Unclosed::Lost(place) => write!(f, "place {} is lost", place.number()),
        }
    }
}

impl std::error::Error for Unclosed {}

/// A worker that didn't leave, and the first call that wasn't served.
#[derive(Debug)]
pub struct NotLeft {
    pub worker: ServiceWorker,
    pub why: Refusal,
}

impl fmt::Display for NotLeft {
    fn fmt(&self, f: &mut fmt::Formatter<'_>) -> fmt::Result {
        self.why.fmt(f)
    }
}

impl std::error::Error for NotLeft {}

impl fmt::Debug for Service {
    fn fmt(&self, f: &mut fmt::Formatter<'_>) -> fmt::Result {
        f.debug_struct("Service").finish_non_exhaustive()
    }
}

impl fmt::Debug for ServiceWorker {
    fn fmt(&self, f: &mut fmt::Formatter<'_>) -> fmt::Result {
        f.debug_struct("ServiceWorker").finish_non_exhaustive()
    }
}

impl Service {
    /// Opens a service by the text of its policy, with all of its workers.
    pub fn open(policy: &str) -> Result<Service, OpenError> {
        let mut raw = RawService::closed();
        let mut room = [0; LINE_ROOM];
        // SAFETY: the service is closed and this call's alone; pointers and lengths are those of
        // slices that are borrowed for the call.
        let reply = unsafe {
            raw::hg_service_open(
                &mut raw,
                policy.as_ptr(),
                policy.len(),
                room.as_mut_ptr(),
                room.len(),
            )
        };
        if reply.status == raw::DONE {
            return Ok(Service { raw });
        }
        Err(OpenError::of(reply.status, &room[..reply.value as usize]))
    }

    /// Gives the worker of a number: none where the policy lacks it, it was given, or it has left; the
    /// error is want of memory.
    pub fn worker(&mut self, number: Worker) -> Result<Option<ServiceWorker>, Refusal> {
        let mut raw = RawWorker::none();
        // SAFETY: the service is open and this call's alone, and no worker stands in the room.
        let reply = unsafe { raw::hg_service_worker(&mut self.raw, number.0, &mut raw) };
        match (reply.status, Refusal::of(reply)) {
            (raw::DONE, _) => Ok(Some(ServiceWorker { raw })),
            (_, Refusal::NoWorker) => Ok(None),
            (_, why) => Err(why),
        }
    }

    /// The service becomes a core, once each worker that it gave has left. Those that it didn't give
    /// leave by the first such call, and aren't given any more. What comes back with an error is given
    /// up where that is let go; after [`NotClosed::NoMemory`] close it again before all else, since its
    /// core may wait for memory.
    pub fn close(mut self) -> Result<Core, Unclosed> {
        let mut raw = RawCore::closed();
        // SAFETY: the service is open and this call's alone, and no core stands in the room.
        let reply = unsafe { raw::hg_service_close(&mut self.raw, &mut raw) };
        let why = match reply.status {
            raw::DONE => return Ok(Core { raw }),
            raw::LOST => return Err(Unclosed::Lost(Place::of(reply.value as u32))),
            raw::STILL_OUT => NotClosed::StillOut(Worker(reply.value as u32)),
            raw::STILL_HELD => NotClosed::StillHeld(Segment(reply.value as u32)),
            raw::AGAIN => NotClosed::Again,
            raw::NO_MEMORY => NotClosed::NoMemory,
            other => NotClosed::Other(other),
        };
        Err(Unclosed::Running(self, why))
    }

    /// How many workers there are.
    pub fn workers(&mut self) -> u32 {
        // SAFETY: the service is this call's alone. So in each question.
        unsafe { raw::hg_service_workers(&mut self.raw) }.value as u32
    }

    /// How many segments all arenas have.
    pub fn segments(&mut self) -> u32 {
        unsafe { raw::hg_service_segments(&mut self.raw) }.value as u32
    }

    /// The tenant of this name.
    pub fn tenant(&mut self, name: &str) -> Option<Tenant> {
        let told = unsafe { raw::hg_service_tenant(&mut self.raw, name.as_ptr(), name.len()) };
        told::number(told).map(Tenant)
    }

    /// The arena of this name.
    pub fn arena(&mut self, name: &str) -> Option<Arena> {
        let told = unsafe { raw::hg_service_arena(&mut self.raw, name.as_ptr(), name.len()) };
        told::number(told).map(Arena)
    }
}

impl Drop for Service {
    fn drop(&mut self) {
        // SAFETY: the service is this value's alone, and isn't used again.
        unsafe { raw::hg_service_drop(&mut self.raw) };
    }
}

impl ServiceWorker {
    /// Asks for a block of so many bytes, 65,536 at most, whose words are 0.
    pub fn alloc(&mut self, actor: Tenant, arena: Arena, bytes: u64) -> Result<Handle, Refusal> {
        let call = |worker| unsafe { raw::hg_worker_alloc(worker, actor.0, arena.0, bytes) };
        told::handle(self.serve(raw::BLOCK, call)?)
    }

    /// Frees a block, whoever holds its segment.
    pub fn free(&mut self, actor: Tenant, block: Handle) -> Result<Freed, Refusal> {
        let call = |worker| unsafe { raw::hg_worker_free(worker, actor.0, block.to_u64()) };
        told::freed(call(&mut self.raw))
    }

    /// Sends what is in hand to those who hold its segment.
    pub fn deliver(&mut self) -> Result<(), Refusal> {
        let call = |worker| unsafe { raw::hg_worker_deliver(worker) };
        self.serve_now(raw::DONE, call).map(drop)
    }

    /// Takes home what was sent to a segment that it holds, and tells how many places came.
    pub fn take(&mut self, segment: Segment) -> Result<u64, Refusal> {
        let call = |worker| unsafe { raw::hg_worker_take(worker, segment.0) };
        Ok(self.serve_now(raw::TAKEN, call)?.value)
    }

    /// Takes the class from each of its pages that has no block, and tells from how many.
    pub fn collect(&mut self) -> Result<u64, Refusal> {
        let call = |worker| unsafe { raw::hg_worker_collect(worker) };
        Ok(self.serve(raw::PAGES, call)?.value)
    }

    /// Reads a word of a block of a segment that it holds.
    pub fn read(&mut self, actor: Tenant, block: Handle, index: u32) -> Result<u64, Refusal> {
        let call = |worker| unsafe { raw::hg_worker_read(worker, actor.0, block.to_u64(), index) };
        Ok(self.serve(raw::VALUE, call)?.value)
    }

    /// Writes a word of a block of a segment that it holds.
    pub fn write(
        &mut self,
        actor: Tenant,
        block: Handle,
        index: u32,
        value: u64,
    ) -> Result<(), Refusal> {
        let word = block.to_u64();
        let call = |worker| unsafe { raw::hg_worker_write(worker, actor.0, word, index, value) };
        self.serve(raw::DONE, call).map(drop)
    }

    /// Reads as many words of a block as the room has, from the word of an index on, one after
    /// another, until one is refused.
    pub fn read_words(
        &mut self,
        actor: Tenant,
        block: Handle,
        first: u32,
        room: &mut [u64],
    ) -> Progress {
        let (word, count) = (block.to_u64(), room.len());
        // SAFETY: the worker is open and this call's alone; pointer and length are those of a slice
        // that is borrowed for the call. So in the next.
        told::progress(unsafe {
            raw::hg_worker_read_words(
                &mut self.raw,
                actor.0,
                word,
                first,
                room.as_mut_ptr(),
                count,
            )
        })
    }

    /// Writes words into a block, from the word of an index on, one after another, until one is
    /// refused.
    pub fn write_words(
        &mut self,
        actor: Tenant,
        block: Handle,
        first: u32,
        words: &[u64],
    ) -> Progress {
        let (word, count) = (block.to_u64(), words.len());
        told::progress(unsafe {
            raw::hg_worker_write_words(&mut self.raw, actor.0, word, first, words.as_ptr(), count)
        })
    }

    /// Reads as many bytes of a block as the room has, from the byte of an offset on, until a word's
    /// Read is refused. Eight lie in a word, the least first.
    pub fn read_bytes(
        &mut self,
        actor: Tenant,
        block: Handle,
        first: u64,
        room: &mut [u8],
    ) -> Progress {
        let (word, count) = (block.to_u64(), room.len());
        // SAFETY: the worker is open and this call's alone; pointer and length are those of a slice
        // that is borrowed for the call. So in the next.
        told::progress(unsafe {
            raw::hg_worker_read_bytes(
                &mut self.raw,
                actor.0,
                word,
                first,
                room.as_mut_ptr(),
                count,
            )
        })
    }

    /// Writes bytes into a block, from the byte of an offset on, until a word's Read or Write is
    /// refused. A word that they fill in part is read first, so that it takes both rights.
    pub fn write_bytes(
        &mut self,
        actor: Tenant,
        block: Handle,
        first: u64,
        bytes: &[u8],
    ) -> Progress {
        let (word, count) = (block.to_u64(), bytes.len());
        told::progress(unsafe {
            raw::hg_worker_write_bytes(&mut self.raw, actor.0, word, first, bytes.as_ptr(), count)
        })
    }

    /// Looks at the block that stands at a place of a segment that it holds.
    pub fn look(&mut self, actor: Tenant, place: Place) -> Result<Row, Refusal> {
        let call = |worker| unsafe { raw::hg_worker_look(worker, actor.0, place.number()) };
        told::row(call(&mut self.raw))
    }

    /// Gives up a segment that it holds.
    pub fn abandon(&mut self, segment: Segment) -> Result<(), Refusal> {
        let call = |worker| unsafe { raw::hg_worker_abandon(worker, segment.0) };
        self.serve_now(raw::DONE, call).map(drop)
    }

    /// As `deliver`, asked once: [`Refusal::Again`] where another call has the list. So the next three.
    pub fn try_deliver(&mut self) -> Result<(), Refusal> {
        let call = |worker| unsafe { raw::hg_worker_deliver(worker) };
        self.serve(raw::DONE, call).map(drop)
    }

    /// As `take`, asked once.
    pub fn try_take(&mut self, segment: Segment) -> Result<u64, Refusal> {
        let call = |worker| unsafe { raw::hg_worker_take(worker, segment.0) };
        Ok(self.serve(raw::TAKEN, call)?.value)
    }

    /// As `abandon`, asked once.
    pub fn try_abandon(&mut self, segment: Segment) -> Result<(), Refusal> {
        let call = |worker| unsafe { raw::hg_worker_abandon(worker, segment.0) };
        self.serve(raw::DONE, call).map(drop)
    }

    /// As `refill`, asked once.
    pub fn try_refill(&mut self, arena: Arena) -> Result<Segment, Refusal> {
        let call = |worker| unsafe { raw::hg_worker_refill(worker, arena.0) };
        Ok(Segment(self.serve(raw::REFILLED, call)?.value as u32))
    }

    /// Takes a segment of an arena that nobody holds, and tells which.
    pub fn refill(&mut self, arena: Arena) -> Result<Segment, Refusal> {
        let call = |worker| unsafe { raw::hg_worker_refill(worker, arena.0) };
        Ok(Segment(self.serve_now(raw::REFILLED, call)?.value as u32))
    }

    /// The blocks that it holds and the actor may list, by rising places; the error is want of
    /// memory.
    pub fn list(&mut self, actor: Tenant) -> Result<Vec<Row>, Refusal> {
        let mut room = Vec::new();
        loop {
            let count = room.len();
            let call =
                |worker| unsafe { raw::hg_worker_list(worker, actor.0, room.as_mut_ptr(), count) };
            let all = self.serve(raw::DONE, call)?.value as usize;
            if all <= count {
                room.truncate(all);
                return room.into_iter().map(told::row).collect();
            }
            room.resize(
                all,
                RawReply {
                    status: 0,
                    owner: 0,
                    detail: 0,
                    value: 0,
                },
            );
        }
    }

    /// Its number.
    pub fn number(&mut self) -> Worker {
        // SAFETY: the worker is this call's alone. So in each question.
        Worker(unsafe { raw::hg_worker_number(&mut self.raw) }.value as u32)
    }

    /// Whether it holds the segment.
    pub fn holds(&mut self, segment: Segment) -> bool {
        unsafe { raw::hg_worker_holds(&mut self.raw, segment.0) }.value == 1
    }

    /// The place of the block in its hand.
    pub fn hand(&mut self) -> Option<Place> {
        told::number(unsafe { raw::hg_worker_hand(&mut self.raw) }).map(Place::of)
    }

    /// Sends what is in hand, gives up each segment that it holds, and goes back to its service. The
    /// worker that comes back with an error is dropped where that is let go.
    pub fn leave(mut self) -> Result<(), NotLeft> {
        match self.empty_out() {
            Ok(()) => Ok(()),
            Err(why) => Err(NotLeft { worker: self, why }),
        }
    }

    fn empty_out(&mut self) -> Result<(), Refusal> {
        match self.deliver() {
            Ok(()) | Err(Refusal::NothingInHand) => {}
            Err(why) => return Err(why),
        }
        loop {
            // SAFETY: the worker is this call's alone.
            let told = unsafe { raw::hg_worker_leave(&mut self.raw) };
            match told.status {
                raw::DONE => return Ok(()),
                raw::AGAIN => std::thread::yield_now(),
                raw::STILL_HELD => self.abandon(Segment(told.value as u32))?,
                _ => return Err(Refusal::of(told)),
            }
        }
    }

    /// Makes a call, and gives its reply where it has that status. The worker is there and stays so,
    /// and is this call's alone meanwhile.
    fn serve(
        &mut self,
        status: u16,
        call: impl FnOnce(*mut RawWorker) -> RawReply,
    ) -> Result<RawReply, Refusal> {
        told::served(status, call(&mut self.raw))
    }

    /// The same, again and again where another call has what it needs.
    fn serve_now(
        &mut self,
        status: u16,
        call: impl Fn(*mut RawWorker) -> RawReply,
    ) -> Result<RawReply, Refusal> {
        loop {
            let told = call(&mut self.raw);
            if told.status != raw::AGAIN {
                return told::served(status, told);
            }
            std::thread::yield_now();
        }
    }
}

impl Drop for ServiceWorker {
    fn drop(&mut self) {
        // SAFETY: the worker is this value's alone, and isn't used again. One that has left is none.
        unsafe { raw::hg_worker_drop(&mut self.raw) };
    }
}

#[cfg(test)]
mod tests {
    use super::*;
    use crate::Rule;
    use std::thread;

    const POLICY: &str = "version = 1
        workers = 2
        tenant = [ {name = \"alice\", limit = 100000}, {name = \"bob\", limit = 64} ]
        arena = [ {name = \"main\", segments = 3} ]";

    fn opened() -> (Service, ServiceWorker, ServiceWorker) {
        let mut service = Service::open(POLICY).unwrap();
        let mut worker = |n| service.worker(Worker(n)).unwrap().unwrap();
        let (one, two) = (worker(0), worker(1));
        (service, one, two)
    }

    #[test]
    fn a_worker_is_given_once() {
        let (mut service, mut one, mut two) = opened();
        assert_eq!((one.number(), two.number()), (Worker(0), Worker(1)));
        for gone in [0, 1, 2, 256, u32::MAX] {
            assert!(service.worker(Worker(gone)).unwrap().is_none());
        }
        assert_eq!((service.workers(), service.segments()), (2, 3));
        assert_eq!(service.tenant("bob"), Some(Tenant(1)));
        assert_eq!(
            (service.tenant("eve"), service.arena("main")),
            (None, Some(Arena(0)))
        );
        let fault = Service::open("version = 1").unwrap_err();
        assert_eq!(fault.to_string(), "policy fault 2: missing workers");
    }

    #[test]
    fn what_one_frees_of_the_other_comes_home() {
        let (alice, bob, main) = (Tenant(0), Tenant(1), Arena(0));
        let (service, mut one, mut two) = opened();
        let held = one.refill(main).unwrap();
        let block = one.alloc(alice, main, 24).unwrap();
        let other = one.alloc(alice, main, 24).unwrap();
        assert_eq!(
            one.read(bob, block, 0),
            Err(Refusal::Denied(Rule::NotGranted))
        );
        assert_eq!(two.read(alice, block, 0), Err(Refusal::Elsewhere));
        let all = |done| Progress {
            done,
            refused: None,
        };
        assert_eq!(one.write_words(alice, block, 1, &[7, 8]), all(2));
        let mut room = [0; 4];
        let past = one.read_words(alice, block, 0, &mut room);
        assert_eq!((past.done, past.refused), (3, Some(Refusal::OutOfBlock)));
        assert_eq!(room, [0, 7, 8, 0]);
        assert_eq!(one.write_bytes(alice, block, 7, b"work"), all(4));
        let mut bytes = [9; 6];
        assert_eq!(one.read_bytes(alice, block, 6, &mut bytes), all(6));
        assert_eq!(&bytes, b"\0work\0");
        let denied = two.write_words(alice, block, 0, &room);
        assert_eq!((denied.done, denied.refused), (0, Some(Refusal::Elsewhere)));
        assert_eq!(two.free(alice, block), Ok(Freed::InHand));
        assert_eq!(two.hand(), Some(block.place()));
        assert_eq!(two.free(alice, other), Err(Refusal::Busy));
        assert_eq!(two.try_deliver(), Ok(()));
        assert_eq!(two.deliver(), Err(Refusal::NothingInHand));
        assert_eq!(two.try_refill(Arena(7)), Err(Refusal::NoSegment));
        assert_eq!(two.try_take(held), Err(Refusal::NotHeld));
        assert_eq!(two.try_abandon(held), Err(Refusal::NotHeld));
        assert_eq!(
            (one.take(held), two.take(held)),
            (Ok(1), Err(Refusal::NotHeld))
        );
        assert_eq!(
            one.free(alice, block),
            Err(Refusal::Denied(Rule::AlreadyFreed))
        );
        let rows = one.list(alice).unwrap();
        assert_eq!((rows.len(), rows[0].handle, rows[0].bytes), (1, other, 24));
        assert_eq!(one.look(alice, other.place()), Ok(rows[0]));

        let Err(Unclosed::Running(service, why)) = service.close() else {
            panic!("it closed");
        };
        assert_eq!(why, NotClosed::StillOut(Worker(0)));
        two.leave().unwrap();
        one.leave().unwrap();
        let mut core = service.close().unwrap();
        core.refill(Worker(1), main).unwrap();
        assert_eq!(core.read(Worker(1), alice, other, 0), Ok(0));
    }

    #[test]
    fn a_dropped_worker_is_out() {
        let (service, one, two) = opened();
        drop(one);
        two.leave().unwrap();
        let unclosed = service.close().unwrap_err();
        assert_eq!(unclosed.to_string(), "worker 0 hasn't left");
    }

    #[test]
    fn two_threads_serve_at_once() {
        let (alice, main) = (Tenant(0), Arena(0));
        let (service, one, two) = opened();
        let serve = |mut worker: ServiceWorker| {
            move || {
                worker.refill(main).unwrap();
                for round in 0..20_000 {
                    let block = worker.alloc(alice, main, 40).unwrap();
                    worker.write(alice, block, 4, round).unwrap();
                    assert_eq!(worker.read(alice, block, 4), Ok(round));
                    assert_eq!(worker.free(alice, block), Ok(Freed::Here));
                }
                let kept = worker.alloc(alice, main, 8).unwrap();
                worker.leave().unwrap();
                kept
            }
        };
        let (one, two) = (thread::spawn(serve(one)), thread::spawn(serve(two)));
        let kept = [one.join().unwrap(), two.join().unwrap()];
        let mut core = service.close().unwrap();
        for _ in 0..2 {
            core.refill(Worker(0), main).unwrap();
        }
        for block in kept {
            assert_eq!(core.read(Worker(0), alice, block, 0), Ok(0));
        }
    }
}
