// The same calls on a heap of the same lists in plain Rust.
mod heap;
mod lists;
mod page;
mod policy;
mod segment;

use heap::Heap;
use policy::{Handle, Policy};
use segment::Segment;
use std::time::Duration;

const LIVE: usize = 2_000;

const SEGMENTS: u8 = 16;

const ALICE: u8 = 0;

const MAIN: u8 = 0;

static OCTAVES: [u64; 6] = [8, 16, 32, 64, 128, 256];

struct Random {
    state: u64,
}

impl Random {
    fn next(&mut self) -> u64 {
        self.state ^= self.state << 13;
        self.state ^= self.state >> 7;
        self.state ^= self.state << 17;
        self.state
    }

    fn block(&mut self) -> usize {
        (self.next() >> 32) as usize % LIVE
    }

    fn bytes(&mut self) -> u64 {
        let number = self.next();
        let low = OCTAVES[(number >> 48) as usize % 6];
        low.wrapping_add(number >> 20 & low.wrapping_sub(1))
    }
}

fn pair(heap: &mut Heap, policy: &Policy, value: u64) -> bool {
    let Ok(handle) = heap.alloc(policy, ALICE, MAIN, 24) else {
        return false;
    };
    let is_written = heap.write(policy, ALICE, handle, 0, value).is_ok();
    heap.free_here(policy, ALICE, handle).is_ok() && is_written
}

#[inline(never)]
fn pairs(heap: &mut Heap, policy: &Policy, calls: u64) -> u64 {
    (0..calls)
        .map(|value| u64::from(pair(heap, policy, value)))
        .sum()
}

fn fill(heap: &mut Heap, policy: &Policy, random: &mut Random) -> Vec<Handle> {
    (0..LIVE)
        .filter_map(|_| heap.alloc(policy, ALICE, MAIN, random.bytes()).ok())
        .collect()
}

fn replace(heap: &mut Heap, policy: &Policy, block: &mut Handle, bytes: u64) -> bool {
    if heap.free_here(policy, ALICE, *block).is_err() {
        return false;
    }
    let Ok(handle) = heap.alloc(policy, ALICE, MAIN, bytes) else {
        return false;
    };
    *block = handle;
    true
}

#[inline(never)]
fn churn(
    heap: &mut Heap,
    policy: &Policy,
    live: &mut [Handle],
    random: &mut Random,
    calls: u64,
) -> u64 {
    let mut done = 0;
    for _ in 0..calls {
        let Some(block) = live.get_mut(random.block()) else {
            return done;
        };
        done += u64::from(replace(heap, policy, block, random.bytes()));
    }
    done
}

#[inline(never)]
fn read_all(heap: &mut Heap, policy: &Policy, live: &[Handle]) -> u64 {
    let mut sum = 0u64;
    for handle in live {
        sum = sum.wrapping_add(heap.read(policy, ALICE, *handle, 0).unwrap_or(0));
    }
    sum
}

#[inline(never)]
fn write_all(heap: &mut Heap, policy: &Policy, live: &[Handle]) -> u64 {
    let mut done = 0u64;
    for handle in live {
        let value = done.wrapping_mul(3);
        done += u64::from(heap.write(policy, ALICE, *handle, 0, value).is_ok());
    }
    done
}

/// What the places and generations of the live blocks come to.
fn sum_of(live: &[Handle]) -> u64 {
    let mut sum = 0u64;
    for handle in live {
        let place = handle.place;
        let number =
            (u64::from(place.segment) * 16 + u64::from(place.page)) * 512 + u64::from(place.index);
        sum = sum
            .wrapping_mul(31)
            .wrapping_add(number)
            .wrapping_add(u64::from(handle.generation));
    }
    sum
}

/// What the C library's clocks tell.
#[repr(C)]
struct Timespec {
    seconds: i64,
    nanos: i64,
}

unsafe extern "C" {
    fn clock_gettime(clock: i32, time: *mut Timespec) -> i32;
}

/// The number of the clock of the time that the processor took for a thread, on Linux.
const THREAD_CPU_TIME: i32 = 3;

/// The time that the processor took for this thread.
fn cpu_time() -> Duration {
    let mut time = Timespec {
        seconds: 0,
        nanos: 0,
    };
    // SAFETY: the call writes to what it is given, which is of the C library's form.
    let status = unsafe { clock_gettime(THREAD_CPU_TIME, &mut time) };
    assert_eq!(status, 0);
    Duration::new(time.seconds as u64, time.nanos as u32)
}

/// Prints how many calls there were, what they came to, and the nanoseconds that the processor took.
fn timed(kind: &str, calls: u64, run: impl FnOnce() -> u64) {
    let start = cpu_time();
    let sum = run();
    let nanos = (cpu_time() - start).as_nanos();
    println!("{kind} {calls} {sum} {nanos}");
}

fn main() {
    let asked = std::env::args().nth(1).and_then(|word| word.parse().ok());
    let calls = asked.unwrap_or(1_000_000u64);
    let policy = Policy::of_one(1_048_576, SEGMENTS.into());
    let mut heap = Heap::new();
    for number in 0..SEGMENTS {
        heap.adopt(number, Segment::new(number, MAIN, policy.max_generation));
    }
    let mut random = Random {
        state: 0x2545_f491_4f6c_dd1d,
    };
    timed("pair", calls, || pairs(&mut heap, &policy, calls));
    let mut live = fill(&mut heap, &policy, &mut random);
    timed("churn", calls, || {
        churn(&mut heap, &policy, &mut live, &mut random, calls)
    });
    let passes = calls / LIVE as u64;
    let words = passes * LIVE as u64;
    timed("write", words, || {
        (0..passes).fold(0, |sum, _| sum + write_all(&mut heap, &policy, &live))
    });
    timed("read", words, || {
        (0..passes).fold(0, |sum: u64, _| {
            sum.wrapping_add(read_all(&mut heap, &policy, &live))
        })
    });
    println!("places {} {} 0", live.len(), sum_of(&live));
}
