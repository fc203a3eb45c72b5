// The same calls on the same lists in plain Rust, over indices into a vector of words.
use std::time::{Duration, Instant};

const ROUNDS: u32 = 2_000;
const BLOCK: u16 = 3;
const PLACES: u16 = 170;
const PAGE_PLACES: usize = 512;
const END: u16 = 0;

struct Page {
    base: u16,
    size: u16,
    places: u16,
    free: u16,
    free_end: u16,
    local: u16,
    local_end: u16,
    in_use: u16,
    used: [bool; PAGE_PLACES],
}

impl Page {
    fn start(&self, index: u16) -> usize {
        self.base as usize + self.size as usize * index as usize
    }

    fn format(&mut self, words: &mut Vec<u64>, size: u16) {
        self.size = size;
        self.places = 512 / size;
        self.free = END;
        self.local = END;
        for index in (0..self.places).rev() {
            let start = self.start(index);
            words[start] = self.free as u64;
            self.free_end = if self.free == END { index } else { self.free_end };
            self.free = index + 1;
        }
    }

    fn pop(&mut self, words: &Vec<u64>) -> Option<u16> {
        if self.free == END {
            return None;
        }
        let index = self.free - 1;
        self.free = words[self.start(index)] as u16;
        self.used[index as usize] = true;
        self.in_use += 1;
        Some(index)
    }

    fn push_local(&mut self, words: &mut Vec<u64>, index: u16) {
        let start = self.start(index);
        words[start] = self.local as u64;
        self.local_end = if self.local == END { index } else { self.local_end };
        self.local = index + 1;
        self.in_use -= 1;
        self.used[index as usize] = false;
    }

    fn splice(&mut self, words: &mut Vec<u64>) {
        if self.local == END {
            return;
        }
        if self.free == END {
            self.free = self.local;
            self.free_end = self.local_end;
            self.local = END;
            return;
        }
        let start = self.start(self.free_end);
        words[start] = self.local as u64;
        self.free_end = self.local_end;
        self.local = END;
    }

    fn is_used(&self, index: u16) -> bool {
        self.used[index as usize]
    }
}

fn take_all(page: &mut Page, words: &Vec<u64>) -> u64 {
    let mut taken = 0u64;
    for _ in 0..512u16 {
        if page.pop(words).is_none() {
            return taken;
        }
        taken += 1;
    }
    taken
}

fn used(page: &Page) -> u64 {
    let mut used = 0u64;
    for index in 0..PLACES {
        if page.is_used(index) {
            used += 1;
        }
    }
    used
}

fn put_all(page: &mut Page, words: &mut Vec<u64>) -> u64 {
    let mut put = 0u64;
    for index in 0..PLACES {
        if page.is_used(index) {
            page.push_local(words, index);
            put += 1;
        }
    }
    put
}

fn by_turns(page: &mut Page, words: &mut Vec<u64>) -> u64 {
    let mut pairs = 0u64;
    for _ in 0..512u16 {
        match page.pop(words) {
            Some(index) => {
                page.push_local(words, index);
                pairs += 1;
            }
            None => page.splice(words),
        }
    }
    pairs
}

fn main() {
    let mut words = vec![0u64; 8192];
    let mut page = Page {
        base: 3 * 512,
        size: 1,
        places: 0,
        free: END,
        free_end: 0,
        local: END,
        local_end: 0,
        in_use: 0,
        used: [false; PAGE_PLACES],
    };
    page.format(&mut words, BLOCK);
    let (mut taking, mut asking, mut putting) = (Duration::ZERO, Duration::ZERO, Duration::ZERO);
    let (mut turning, mut reading) = (Duration::ZERO, Duration::ZERO);
    let (mut taken, mut asked, mut put, mut pairs) = (0u64, 0u64, 0u64, 0u64);
    for _ in 0..ROUNDS {
        page.splice(&mut words);
        let start = Instant::now();
        taken += take_all(&mut page, &words);
        let ask = Instant::now();
        asked += used(&page);
        let middle = Instant::now();
        put += put_all(&mut page, &mut words);
        let end = Instant::now();
        page.splice(&mut words);
        let turn = Instant::now();
        pairs += by_turns(&mut page, &mut words);
        let last = Instant::now();
        let again = Instant::now();
        taking += ask.duration_since(start);
        asking += middle.duration_since(ask);
        putting += end.duration_since(middle);
        turning += last.duration_since(turn);
        reading += again.duration_since(last);
    }
    println!("take {taken} {}", taking.as_nanos());
    println!("ask {asked} {}", asking.as_nanos());
    println!("put {put} {}", putting.as_nanos());
    println!("turns {pairs} {}", turning.as_nanos());
    println!("clock {ROUNDS} {}", reading.as_nanos());
}
