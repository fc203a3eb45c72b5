//! The cases of bench/core on slabs of Rust: sharded-slab's, or slotmap's.
//!     peers PROGRAM CASE THREADS MS [OPS]
//! prints the line that bench/core prints. A block of up to 512 bytes lies in the slab of its power
//! of two, each slab of one type of block. With sharded-slab, what is freed elsewhere is freed by a
//! second thread, and neither thread's waiting is counted.
use sharded_slab::Slab;
use slotmap::{DefaultKey, SlotMap};
use std::hint::black_box;
use std::sync::Barrier;
use std::sync::atomic::{AtomicU64, AtomicUsize, Ordering};
use std::time::{Duration, Instant};

const LIVE: usize = 2_000;
const BESIDE: usize = 2_500;
const ORDER: usize = 4_096;
const LIFO: usize = 100;
const ROUND: usize = 2_000;
const MEMORY: usize = 174_080;

/// Numbers that look random, the same as in the other programs.
struct Random(u64);

impl Random {
    fn new() -> Random {
        Random(0x2545_f491_4f6c_dd1d)
    }

    fn next(&mut self) -> u64 {
        self.0 ^= self.0 << 13;
        self.0 ^= self.0 >> 7;
        self.0 ^= self.0 << 17;
        self.0
    }

    fn block(&mut self) -> usize {
        (self.next() >> 32) as usize % LIVE
    }

    fn bytes(&mut self) -> u64 {
        let number = self.next();
        let low = 8u64 << ((number >> 48) % 6);
        low + (number >> 20 & (low - 1))
    }
}

/// The power of two of words in which so many bytes lie.
fn power(bytes: u64) -> u32 {
    bytes.div_ceil(8).next_power_of_two().trailing_zeros()
}

/// A place where blocks of one type are kept.
trait Store: Sync {
    type Key: Copy + Send + Sync;
    fn new() -> Self;
    fn give(&mut self) -> Self::Key;
    fn free(&mut self, key: Self::Key) -> bool;
    fn read(&self, key: Self::Key) -> u64;
    fn write(&mut self, key: Self::Key, value: u64) -> bool;
}

struct Sharded<const WORDS: usize>(Slab<[AtomicU64; WORDS]>);

impl<const WORDS: usize> Sharded<WORDS> {
    fn insert(&self) -> usize {
        self.0.insert([const { AtomicU64::new(0) }; WORDS]).unwrap()
    }
}

impl<const WORDS: usize> Store for Sharded<WORDS> {
    type Key = usize;

    fn new() -> Self {
        Sharded(Slab::new())
    }

    fn give(&mut self) -> usize {
        self.insert()
    }

    fn free(&mut self, key: usize) -> bool {
        self.0.remove(key)
    }

    fn read(&self, key: usize) -> u64 {
        self.0.get(key).unwrap()[0].load(Ordering::Relaxed)
    }

    fn write(&mut self, key: usize, value: u64) -> bool {
        self.0.get(key).map(|words| words[0].store(value, Ordering::Relaxed)).is_some()
    }
}

struct Slots<const WORDS: usize>(SlotMap<DefaultKey, [u64; WORDS]>);

impl<const WORDS: usize> Store for Slots<WORDS> {
    type Key = DefaultKey;

    fn new() -> Self {
        Slots(SlotMap::new())
    }

    fn give(&mut self) -> DefaultKey {
        self.0.insert([0; WORDS])
    }

    fn free(&mut self, key: DefaultKey) -> bool {
        self.0.remove(key).is_some()
    }

    fn read(&self, key: DefaultKey) -> u64 {
        self.0[key][0]
    }

    fn write(&mut self, key: DefaultKey, value: u64) -> bool {
        self.0.get_mut(key).map(|words| words[0] = value).is_some()
    }
}

/// Stores for blocks of 1 to 64 words, by powers of two.
struct Sizes<A, B, C, D, E, F, G>(A, B, C, D, E, F, G);

trait Mixed {
    type Key: Copy;
    fn new() -> Self;
    fn give(&mut self, bytes: u64) -> (u32, Self::Key);
    fn free(&mut self, block: (u32, Self::Key)) -> bool;
}

impl<K: Copy, A, B, C, D, E, F, G> Mixed for Sizes<A, B, C, D, E, F, G>
where
    A: Store<Key = K>,
    B: Store<Key = K>,
    C: Store<Key = K>,
    D: Store<Key = K>,
    E: Store<Key = K>,
    F: Store<Key = K>,
    G: Store<Key = K>,
{
    type Key = K;

    fn new() -> Self {
        Sizes(A::new(), B::new(), C::new(), D::new(), E::new(), F::new(), G::new())
    }

    fn give(&mut self, bytes: u64) -> (u32, K) {
        let power = power(bytes);
        let key = match power {
            0 => self.0.give(),
            1 => self.1.give(),
            2 => self.2.give(),
            3 => self.3.give(),
            4 => self.4.give(),
            5 => self.5.give(),
            _ => self.6.give(),
        };
        (power, key)
    }

    fn free(&mut self, (power, key): (u32, K)) -> bool {
        match power {
            0 => self.0.free(key),
            1 => self.1.free(key),
            2 => self.2.free(key),
            3 => self.3.free(key),
            4 => self.4.free(key),
            5 => self.5.free(key),
            _ => self.6.free(key),
        }
    }
}

#[repr(C)]
struct Timespec {
    seconds: i64,
    nanos: i64,
}

unsafe extern "C" {
    fn clock_gettime(clock: i32, time: *mut Timespec) -> i32;
}

/// The time that the processor gave to this thread.
fn now() -> Duration {
    let mut time = Timespec { seconds: 0, nanos: 0 };
    // CLOCK_THREAD_CPUTIME_ID of Linux
    unsafe { clock_gettime(3, &mut time) };
    Duration::new(time.seconds as u64, time.nanos as u32)
}

/// What was asked for: for how long, or how many operations where that isn't 0.
#[derive(Clone, Copy)]
struct Span {
    time: Duration,
    ops: u64,
}

impl Span {
    fn is_over(&self, spent: Duration, done: u64) -> bool {
        if self.ops > 0 { done >= self.ops } else { spent >= self.time }
    }
}

/// Runs batches of so many operations until the span is over: the time and the operations.
fn run(span: Span, batch: usize, mut kind: impl FnMut(usize)) -> (Duration, u64) {
    let start = now();
    let mut done = 0;
    loop {
        kind(batch);
        done += batch as u64;
        let spent = now() - start;
        if span.is_over(spent, done) {
            return (spent, done);
        }
    }
}

fn pair<S: Store>(span: Span) -> (Duration, u64) {
    let mut store = S::new();
    run(span, ORDER, |count| {
        for i in 0..count {
            let key = black_box(store.give());
            assert!(store.write(key, i as u64) && store.free(key));
        }
    })
}

fn lifo<S: Store>(span: Span) -> (Duration, u64) {
    let mut store = S::new();
    let mut stack = Vec::with_capacity(LIFO);
    run(span, 4_100, |count| {
        for _ in 0..count / LIFO {
            for _ in 0..LIFO {
                stack.push(black_box(store.give()));
            }
            while let Some(key) = stack.pop() {
                assert!(store.free(key));
            }
        }
    })
}

fn churn<M: Mixed>(span: Span) -> (Duration, u64) {
    let (mut store, mut random) = (M::new(), Random::new());
    let mut live: Vec<_> = (0..LIVE).map(|_| store.give(random.bytes())).collect();
    run(span, ORDER, |count| {
        for _ in 0..count {
            let block = &mut live[random.block()];
            assert!(store.free(*block));
            *block = store.give(random.bytes());
        }
    })
}

/// Live blocks, and the order in which they are asked for.
fn filled<S: Store>() -> (S, Vec<S::Key>, Vec<u16>) {
    let (mut store, mut random) = (S::new(), Random::new());
    let live = (0..LIVE).map(|_| store.give()).collect();
    let order = (0..ORDER).map(|_| random.block() as u16).collect();
    (store, live, order)
}

fn read<S: Store>(span: Span) -> (Duration, u64) {
    let (store, live, order) = filled::<S>();
    run(span, ORDER, |_| {
        let mut sum = 0u64;
        for block in &order {
            sum = sum.wrapping_add(store.read(live[*block as usize]));
        }
        black_box(sum);
    })
}

fn write<S: Store>(span: Span) -> (Duration, u64) {
    let (mut store, live, order) = filled::<S>();
    run(span, ORDER, |_| {
        for (value, block) in order.iter().enumerate() {
            assert!(store.write(live[*block as usize], value as u64));
        }
    })
}

fn resident() -> u64 {
    let text = std::fs::read_to_string("/proc/self/statm").unwrap();
    text.split(' ').nth(1).unwrap().parse::<u64>().unwrap() * 4_096
}

/// The bytes a live block in place of the time.
fn mem<S: Store>() -> (f64, u64) {
    let mut keys = vec![None; MEMORY];
    keys.fill_with(|| None);
    let before = resident();
    let mut store = S::new();
    for key in &mut keys {
        *key = Some(store.give());
    }
    let bytes = resident() - before;
    black_box(&keys);
    (bytes as f64 / MEMORY as f64, MEMORY as u64)
}

/// Gives out batches that a second thread frees; neither one's waiting is counted.
fn remote(span: Span, batch: usize) -> (Duration, u64) {
    let slab = Slab::<[AtomicU64; 3]>::new();
    let sent: Vec<AtomicUsize> = (0..batch).map(|_| AtomicUsize::new(0)).collect();
    // 0 while there is nothing to free, 1 where there is, 2 at the end
    let (turn, freeing) = (AtomicUsize::new(0), AtomicU64::new(0));
    std::thread::scope(|threads| {
        threads.spawn(|| {
            loop {
                match turn.load(Ordering::SeqCst) {
                    0 => std::thread::yield_now(),
                    1 => {
                        let start = Instant::now();
                        for key in &sent {
                            assert!(slab.remove(key.load(Ordering::Relaxed)));
                        }
                        freeing.fetch_add(start.elapsed().as_nanos() as u64, Ordering::SeqCst);
                        turn.store(0, Ordering::SeqCst);
                    }
                    _ => return,
                }
            }
        });
        let (begin, mut giving, mut done) = (Instant::now(), Duration::ZERO, 0u64);
        while done == 0 || !span.is_over(begin.elapsed(), done) {
            let start = Instant::now();
            for key in &sent {
                let given = slab.insert([const { AtomicU64::new(0) }; 3]).unwrap();
                key.store(given, Ordering::Relaxed);
            }
            giving += start.elapsed();
            turn.store(1, Ordering::SeqCst);
            while turn.load(Ordering::SeqCst) != 0 {
                std::thread::yield_now();
            }
            done += batch as u64;
        }
        turn.store(2, Ordering::SeqCst);
        (giving + Duration::from_nanos(freeing.load(Ordering::SeqCst)), done)
    })
}

/// What a thread did, by the clock and by the processor.
struct Ended {
    done: u64,
    time: Duration,
    spent: Duration,
}

/// A thread's own blocks of slabs that all share, until the span is over.
fn churn_shared(slabs: &ShardedSizes, gate: &Barrier, span: Span) -> Ended {
    let mut random = Random::new();
    let mut live: Vec<_> = (0..BESIDE).map(|_| slabs.insert(random.bytes())).collect();
    gate.wait();
    let (start, begun, mut done) = (Instant::now(), now(), 0);
    loop {
        for _ in 0..ORDER {
            let block = &mut live[(random.next() >> 32) as usize % BESIDE];
            assert!(slabs.remove(*block));
            *block = slabs.insert(random.bytes());
        }
        done += ORDER as u64;
        let time = start.elapsed();
        if span.is_over(time, done) {
            return Ended { done, time, spent: now() - begun };
        }
    }
}

/// The churn in so many threads: the nanoseconds in which all of them together do one operation, by
/// the clock, and those that one operation takes a processor.
fn scale(threads: usize, span: Span) {
    let (slabs, gate) = (ShardedSizes::new(), Barrier::new(threads));
    let ended: Vec<Ended> = std::thread::scope(|scope| {
        let run = || scope.spawn(|| churn_shared(&slabs, &gate, span));
        let running: Vec<_> = (0..threads).map(|_| run()).collect();
        running.into_iter().map(|thread| thread.join().unwrap()).collect()
    });
    let done = ended.iter().map(|it| it.done).sum::<u64>();
    let time = ended.iter().map(|it| it.time).sum::<Duration>().as_nanos() as f64;
    let spent = ended.iter().map(|it| it.spent).sum::<Duration>().as_nanos() as f64;
    println!("sharded-slab scale {threads} {:.2} {done}", time / threads as f64 / done as f64);
    println!("sharded-slab scalecpu {threads} {:.2} {done}", spent / done as f64);
}

fn of_store<S: Store, M: Mixed>(case: &str, span: Span) -> Option<(Duration, u64)> {
    match case {
        "pair" => Some(pair::<S>(span)),
        "lifo" => Some(lifo::<S>(span)),
        "churn" => Some(churn::<M>(span)),
        "read" => Some(read::<S>(span)),
        "write" => Some(write::<S>(span)),
        _ => None,
    }
}

type ShardedSizes = Sizes<
    Sharded<1>,
    Sharded<2>,
    Sharded<4>,
    Sharded<8>,
    Sharded<16>,
    Sharded<32>,
    Sharded<64>,
>;

impl ShardedSizes {
    fn insert(&self, bytes: u64) -> (u32, usize) {
        let power = power(bytes);
        let key = match power {
            0 => self.0.insert(),
            1 => self.1.insert(),
            2 => self.2.insert(),
            3 => self.3.insert(),
            4 => self.4.insert(),
            5 => self.5.insert(),
            _ => self.6.insert(),
        };
        (power, key)
    }

    fn remove(&self, (power, key): (u32, usize)) -> bool {
        match power {
            0 => self.0.0.remove(key),
            1 => self.1.0.remove(key),
            2 => self.2.0.remove(key),
            3 => self.3.0.remove(key),
            4 => self.4.0.remove(key),
            5 => self.5.0.remove(key),
            _ => self.6.0.remove(key),
        }
    }
}

type SlotSizes = Sizes<Slots<1>, Slots<2>, Slots<4>, Slots<8>, Slots<16>, Slots<32>, Slots<64>>;

fn main() {
    let words: Vec<String> = std::env::args().skip(1).collect();
    let [program, case, threads, millis, rest @ ..] = &words[..] else {
        eprintln!("usage: peers PROGRAM CASE THREADS MS [OPS]");
        std::process::exit(2);
    };
    let ops = rest.first().map_or(0, |ops| ops.parse().unwrap());
    let span = Span { time: Duration::from_millis(millis.parse().unwrap()), ops };
    let is_sharded = program == "sharded-slab";
    if case == "scale" && is_sharded {
        return scale(threads.parse().unwrap(), span);
    }
    if case == "mem" {
        let (bytes, blocks) = if is_sharded { mem::<Sharded<3>>() } else { mem::<Slots<3>>() };
        println!("{program} {case} {threads} {bytes:.2} {blocks}");
        return;
    }
    let ran = match (is_sharded, case.as_str()) {
        (true, "remote") => Some(remote(span, ROUND)),
        (true, "remote64") => Some(remote(span, 64)),
        (true, "remote256") => Some(remote(span, 256)),
        (true, case) => of_store::<Sharded<3>, ShardedSizes>(case, span),
        (false, case) => of_store::<Slots<3>, SlotSizes>(case, span),
    };
    let Some((spent, done)) = ran else {
        std::process::exit(3);
    };
    println!("{program} {case} {threads} {:.2} {done}", spent.as_nanos() as f64 / done as f64);
}
