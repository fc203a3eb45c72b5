//! What bench/bank does, on slabs of sharded-slab: as many live blocks of the same sizes, each in the
//! slab of its power of two of words, each slab of one type of block.
//!     slab CORES BLOCKS MS
//! prints the lines that bank_bench prints, but for `grow`; CORES is printed alone.
use sharded_slab::Slab;
use std::hint::black_box;
use std::sync::atomic::{AtomicU64, Ordering};
use std::time::Duration;

/// A slab of blocks of one size.
trait Store {
    fn give(&self, bytes: u64) -> usize;
    fn free(&self, key: usize) -> bool;
    fn read(&self, key: usize) -> u64;
    fn write(&self, key: usize, value: u64) -> bool;
}

struct Sized<const WORDS: usize>(Slab<[AtomicU64; WORDS]>);

impl<const WORDS: usize> Store for Sized<WORDS> {
    fn give(&self, bytes: u64) -> usize {
        let key = self.0.insert([const { AtomicU64::new(0) }; WORDS]).unwrap();
        self.write(key, bytes);
        key
    }

    fn free(&self, key: usize) -> bool {
        self.0.remove(key)
    }

    fn read(&self, key: usize) -> u64 {
        self.0.get(key).unwrap()[0].load(Ordering::Relaxed)
    }

    fn write(&self, key: usize, value: u64) -> bool {
        self.0.get(key).map(|words| words[0].store(value, Ordering::Relaxed)).is_some()
    }
}

fn slab<const WORDS: usize>() -> Box<dyn Store> {
    Box::new(Sized::<WORDS>(Slab::new()))
}

/// The slabs for blocks of 1 to 1,024 words.
fn slabs() -> [Box<dyn Store>; 11] {
    [
        slab::<1>(),
        slab::<2>(),
        slab::<4>(),
        slab::<8>(),
        slab::<16>(),
        slab::<32>(),
        slab::<64>(),
        slab::<128>(),
        slab::<256>(),
        slab::<512>(),
        slab::<1024>(),
    ]
}

/// Numbers that look random, the same as in the other programs.
struct Random(u64);

impl Random {
    fn next(&mut self) -> u64 {
        self.0 = self.0.wrapping_add(0x9e37_79b9_7f4a_7c15);
        let mut mixed = self.0;
        mixed = (mixed ^ mixed >> 30).wrapping_mul(0xbf58_476d_1ce4_e5b9);
        mixed = (mixed ^ mixed >> 27).wrapping_mul(0x94d0_49bb_1331_11eb);
        mixed ^ mixed >> 31
    }

    fn bytes(&mut self) -> u64 {
        let number = self.next();
        if number & 63 == 0 {
            return 512 + (number >> 20) % 7_681;
        }
        let low = 8u64 << ((number >> 48) % 6);
        low + (number >> 20 & (low - 1))
    }
}

#[derive(Clone, Copy)]
struct Live {
    key: usize,
    bytes: u64,
}

/// The slabs with the blocks that live in them.
struct Host {
    slabs: [Box<dyn Store>; 11],
    live: Vec<Live>,
}

impl Host {
    fn slab(&self, bytes: u64) -> &dyn Store {
        &*self.slabs[bytes.div_ceil(8).next_power_of_two().trailing_zeros() as usize]
    }

    fn replace(&mut self, at: usize) -> u64 {
        let Live { key, bytes } = self.live[at];
        let slab = self.slab(bytes);
        assert!(slab.free(key));
        let key = slab.give(bytes);
        self.live[at].key = key;
        0
    }

    fn read(&mut self, at: usize) -> u64 {
        let Live { key, bytes } = self.live[at];
        self.slab(bytes).read(key)
    }

    fn write(&mut self, at: usize) -> u64 {
        let Live { key, bytes } = self.live[at];
        assert!(self.slab(bytes).write(key, at as u64));
        0
    }
}

#[repr(C)]
struct Timespec {
    seconds: i64,
    nanos: i64,
}

unsafe extern "C" {
    fn clock_gettime(clock: i32, time: *mut Timespec) -> i32;
}

/// The time that the processor gave to this thread.
fn now() -> Duration {
    let mut time = Timespec { seconds: 0, nanos: 0 };
    // CLOCK_THREAD_CPUTIME_ID of Linux
    unsafe { clock_gettime(3, &mut time) };
    Duration::new(time.seconds as u64, time.nanos as u32)
}

fn resident() -> u64 {
    let text = std::fs::read_to_string("/proc/self/statm").unwrap();
    text.split(' ').nth(1).unwrap().parse::<u64>().unwrap() * 4_096
}

fn tell(cores: &str, name: &str, spent: Duration, done: u64) {
    println!("sharded {cores} {name} {:.2} {done}", spent.as_nanos() as f64 / done as f64);
}

fn main() {
    let asked: Vec<String> = std::env::args().collect();
    let [_, cores, blocks, span] = asked.as_slice() else {
        panic!("slab CORES BLOCKS MS");
    };
    let (blocks, span) = (blocks.parse::<usize>().unwrap(), Duration::from_millis(span.parse().unwrap()));
    let mut random = Random(1);
    let mut host = Host { slabs: slabs(), live: vec![Live { key: 1, bytes: 1 }; blocks] };
    let (before, start, mut sum) = (resident(), now(), 0);
    for at in 0..blocks {
        let bytes = random.bytes();
        let key = host.slab(bytes).give(bytes);
        host.live[at] = Live { key, bytes };
        sum += bytes;
    }
    tell(cores, "fill", now() - start, blocks as u64);
    println!("sharded {cores} live {blocks} {sum}");
    println!("sharded {cores} resident {before} {}", resident());
    let cases: [(&str, fn(&mut Host, usize) -> u64); 3] =
        [("replace", Host::replace), ("read", Host::read), ("write", Host::write)];
    for (name, case) in cases {
        let (start, mut done, mut spent) = (now(), 0, Duration::ZERO);
        while spent < span {
            for _ in 0..1_024 {
                let at = (random.next() >> 32) as usize % blocks;
                black_box(case(&mut host, at));
            }
            done += 1_024;
            spent = now() - start;
        }
        tell(cores, name, spent, done);
    }
}
