//! A page: lists of the free blocks of one size, linked through the blocks' own first words.

/// The link at the end of a list.
const END: u16 = 0;

pub const PAGE_WORDS: usize = 512;

pub const CLASSES: usize = 36;

static SIZES: [u16; CLASSES] = [
    1, 2, 3, 4, 5, 6, 7, 8, 10, 12, 14, 16, 20, 24, 28, 32, 40, 48, 56, 64, 80, 96, 112, 128, 160,
    192, 224, 256, 320, 384, 448, 512, 1024, 2048, 4096, 8192,
];

/// A size class: the words of a block, and where that stands in the table.
#[derive(Clone, Copy)]
pub struct Class {
    pub words: u16,
    pub number: u8,
}

/// The least class that holds so many words.
pub fn class_of(words: u64) -> Option<Class> {
    let number = SIZES.iter().position(|size| words <= u64::from(*size))?;
    Some(Class {
        words: SIZES[number],
        number: number as u8,
    })
}

/// Over how many pages a block lies.
pub fn pages_of(class: Class) -> u8 {
    ((class.words - 1) / PAGE_WORDS as u16 + 1) as u8
}

/// How many blocks begin at a page.
pub fn per_page(class: Class) -> u16 {
    u16::from(pages_of(class)) * PAGE_WORDS as u16 / class.words
}

pub fn words_of(bytes: u64) -> u64 {
    if bytes == 0 { 1 } else { (bytes - 1) / 8 + 1 }
}

pub struct Page {
    base: u16,
    size: u16,
    places: u16,
    free: u16,
    free_end: u16,
    local: u16,
    local_end: u16,
    in_use: u16,
    used: [bool; PAGE_WORDS],
}

impl Page {
    pub fn new(number: u8) -> Page {
        Page {
            base: number as u16 * PAGE_WORDS as u16,
            size: 1,
            places: 0,
            free: END,
            free_end: 0,
            local: END,
            local_end: 0,
            in_use: 0,
            used: [false; PAGE_WORDS],
        }
    }

    fn start(&self, index: u16) -> usize {
        self.base as usize + self.size as usize * index as usize
    }

    pub fn format(&mut self, words: &mut [u64], class: Class, worn: &[bool; PAGE_WORDS]) {
        self.size = class.words;
        self.places = per_page(class);
        self.in_use = 0;
        self.used = [false; PAGE_WORDS];
        self.free = END;
        self.local = END;
        for index in (0..self.places).rev() {
            if worn[index as usize] {
                continue;
            }
            words[self.start(index)] = self.free as u64;
            if self.free == END {
                self.free_end = index;
            }
            self.free = index + 1;
        }
    }

    pub fn pop(&mut self, words: &[u64]) -> Option<u16> {
        if self.free == END {
            return None;
        }
        let index = self.free - 1;
        self.free = words[self.start(index)] as u16;
        self.used[index as usize] = true;
        self.in_use += 1;
        Some(index)
    }

    /// The head of `free`, which is given what `local` has where it is empty.
    pub fn pop_refilled(&mut self, words: &mut [u64]) -> Option<u16> {
        if let Some(index) = self.pop(words) {
            return Some(index);
        }
        self.splice(words);
        self.pop(words)
    }

    pub fn push_local(&mut self, words: &mut [u64], index: u16) {
        words[self.start(index)] = self.local as u64;
        if self.local == END {
            self.local_end = index;
        }
        self.local = index + 1;
        self.end_use(index);
    }

    pub fn splice(&mut self, words: &mut [u64]) {
        if self.local == END {
            return;
        }
        if self.free == END {
            self.free = self.local;
        } else {
            words[self.start(self.free_end)] = self.local as u64;
        }
        self.free_end = self.local_end;
        self.local = END;
    }

    pub fn end_use(&mut self, index: u16) {
        self.in_use -= 1;
        self.used[index as usize] = false;
    }

    pub fn is_full(&self) -> bool {
        self.free == END && self.local == END
    }
}
