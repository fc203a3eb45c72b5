//! A segment: the words of its pages, their lists, and the slot words of their places.

use crate::page::{Class, PAGE_WORDS, Page, pages_of, per_page};
use crate::policy::{Handle, Place, pack, word_generation, word_owner};

pub const SEGMENT_PAGES: usize = 16;

const SEGMENT_WORDS: usize = SEGMENT_PAGES * PAGE_WORDS;

#[derive(Clone, Copy)]
pub enum Standing {
    Home(u32),
    Open(u32, u8),
}

/// A standing in 8 bytes.
#[derive(Clone, Copy)]
struct PackedStanding {
    generation: u32,
    owner: u8,
    is_open: bool,
}

/// The word and the record of each place.
struct Slots {
    segment: u8,
    words: Box<[u64]>,
    records: Box<[PackedStanding]>,
}

pub struct Segment {
    pub arena: u8,
    pub greatest: u32,
    slots: Slots,
    words: Box<[u64]>,
    pages: Box<[Page]>,
    classes: Box<[Option<Class>; SEGMENT_PAGES]>,
    // a bit for each page that has no class and over which no block lies
    blank: u16,
    charges: Box<[u64; 64]>,
}

fn slot(page: u8, index: u16) -> usize {
    usize::from(page) * PAGE_WORDS + usize::from(index)
}

impl Slots {
    fn standing(&self, page: u8, index: u16) -> Standing {
        let record = self.records[slot(page, index)];
        if record.is_open {
            Standing::Open(record.generation, record.owner)
        } else {
            Standing::Home(record.generation)
        }
    }

    fn put(&mut self, place: Place, standing: Standing, word: u64) {
        self.words[slot(place.page, place.index)] = word;
        self.records[slot(place.page, place.index)] = match standing {
            Standing::Home(generation) => PackedStanding {
                generation,
                owner: 0,
                is_open: false,
            },
            Standing::Open(generation, owner) => PackedStanding {
                generation,
                owner,
                is_open: true,
            },
        };
    }

    fn open(&mut self, place: Place, owner: u8) -> Handle {
        let Standing::Home(before) = self.standing(place.page, place.index) else {
            unreachable!()
        };
        let generation = before + 1;
        self.put(
            place,
            Standing::Open(generation, owner),
            pack(generation, owner, true),
        );
        Handle { place, generation }
    }

    fn close(&mut self, place: Place, expected: u64) -> Result<(), u64> {
        let word = self.words[slot(place.page, place.index)];
        if word != expected {
            return Err(word);
        }
        self.put(place, Standing::Home(word_generation(word)), word - 1);
        Ok(())
    }
}

fn start(class: Class, page: u8, index: u16) -> usize {
    page as usize * PAGE_WORDS + class.words as usize * index as usize
}

pub fn block_bytes(class: Class) -> u64 {
    8 * u64::from(class.words)
}

impl Segment {
    pub fn new(segment: u8, arena: u8, greatest: u32) -> Segment {
        let home = PackedStanding {
            generation: 0,
            owner: 0,
            is_open: false,
        };
        Segment {
            arena,
            greatest,
            slots: Slots {
                segment,
                words: vec![0; SEGMENT_WORDS].into_boxed_slice(),
                records: vec![home; SEGMENT_WORDS].into_boxed_slice(),
            },
            words: vec![0; SEGMENT_WORDS].into_boxed_slice(),
            pages: (0..SEGMENT_PAGES as u8).map(Page::new).collect(),
            classes: Box::new([None; SEGMENT_PAGES]),
            blank: u16::MAX,
            charges: Box::new([0; 64]),
        }
    }

    pub fn standing(&self, page: u8, index: u16) -> Standing {
        self.slots.standing(page, index)
    }

    pub fn look(&self, page: u8, index: u16) -> u64 {
        self.slots.words[slot(page, index)]
    }

    pub fn class_of(&self, page: u8) -> Option<Class> {
        self.classes[page as usize]
    }

    pub fn is_full(&self, page: u8) -> bool {
        self.pages[page as usize].is_full()
    }

    pub fn open_in(&mut self, page: u8, owner: u8) -> Option<Handle> {
        if self.is_full(page) {
            return None;
        }
        let class = self.class_of(page)?;
        let index = self.pages[page as usize].pop_refilled(&mut self.words)?;
        let place = Place {
            segment: self.slots.segment,
            page,
            index,
        };
        let handle = self.slots.open(place, owner);
        let from = start(class, page, index);
        self.words[from..from + class.words as usize].fill(0);
        self.charges[owner as usize] += block_bytes(class);
        Some(handle)
    }

    pub fn close_here(&mut self, place: Place, expected: u64) -> Result<(), u64> {
        self.slots.close(place, expected)?;
        let Some(class) = self.class_of(place.page) else {
            unreachable!()
        };
        let page = &mut self.pages[place.page as usize];
        if word_generation(expected) == self.greatest {
            page.end_use(place.index);
        } else {
            page.push_local(&mut self.words, place.index);
        }
        self.charges[word_owner(expected) as usize] -= block_bytes(class);
        Ok(())
    }

    pub fn read(&self, page: u8, index: u16, at: u16) -> u64 {
        let Some(class) = self.class_of(page) else {
            unreachable!()
        };
        self.words[start(class, page, index) + at as usize]
    }

    pub fn write(&mut self, page: u8, index: u16, at: u16, value: u64) {
        let Some(class) = self.class_of(page) else {
            unreachable!()
        };
        self.words[start(class, page, index) + at as usize] = value;
    }

    /// Whether a page has a place that is home and not worn, of those of the class.
    pub fn first_begin(&self, class: Class) -> Option<u8> {
        let behind = 1..pages_of(class);
        let mut begins = behind.fold(self.blank, |marks, ahead| marks & self.blank >> ahead);
        while begins != 0 {
            let page = begins.trailing_zeros() as u8;
            if self.has_vacant(page, class) {
                return Some(page);
            }
            begins &= begins - 1;
        }
        None
    }

    fn has_vacant(&self, page: u8, class: Class) -> bool {
        (0..per_page(class)).any(|index| match self.standing(page, index) {
            Standing::Home(generation) => generation != self.greatest,
            Standing::Open(_, _) => false,
        })
    }

    pub fn assign_page(&mut self, page: u8, class: Class) {
        let mut worn = [false; PAGE_WORDS];
        for (index, is_worn) in worn.iter_mut().enumerate() {
            *is_worn = match self.standing(page, index as u16) {
                Standing::Home(generation) => generation == self.greatest,
                Standing::Open(_, _) => false,
            };
        }
        self.pages[page as usize].format(&mut self.words, class, &worn);
        self.classes[page as usize] = Some(class);
        self.blank &= !((((1u32 << pages_of(class)) - 1) << page) as u16);
    }
}
