//! The heap of a worker: its segments, and a queue of pages for each arena and size class.

use crate::lists::IndexLists;
use crate::page::{CLASSES, Class, class_of, words_of};
use crate::policy::{Handle, Place, Policy, Right, Rule, pack, word_owner};
use crate::segment::{SEGMENT_PAGES, Segment, Standing, block_bytes};

const MAX_SEGMENTS: usize = 64;

const PAGES: u16 = (MAX_SEGMENTS * SEGMENT_PAGES) as u16;

const ARENAS: u16 = 16;

#[derive(Clone, Copy)]
pub enum Refused {
    #[allow(dead_code)]
    Denied(Rule),
    TooLarge,
    NoRoom,
    Elsewhere,
    OutOfBlock,
}

pub struct Heap {
    segments: Vec<Segment>,
    /// Where each segment stands, by number.
    table: Box<[Option<u8>; MAX_SEGMENTS]>,
    queues: IndexLists,
    charges: Box<[u64; 64]>,
}

fn key(arena: u8, class: Class) -> u16 {
    arena as u16 * CLASSES as u16 + class.number as u16
}

fn page_of(place: Place) -> u16 {
    u16::from(place.segment) * SEGMENT_PAGES as u16 + u16::from(place.page)
}

/// Puts a page where it belongs after its lists have changed.
fn requeue(queues: &mut IndexLists, arena: u8, class: Class, page: u16, is_full: bool) {
    if is_full {
        queues.remove(page);
        return;
    }
    if !queues.has(page) {
        queues.push_front(key(arena, class), page);
    }
}

impl Heap {
    pub fn new() -> Heap {
        Heap {
            segments: Vec::with_capacity(MAX_SEGMENTS),
            table: Box::new([None; MAX_SEGMENTS]),
            queues: IndexLists::new(PAGES as usize, ARENAS as usize * CLASSES),
            charges: Box::new([0; 64]),
        }
    }

    /// Takes in a segment of which no place was ever given out.
    pub fn adopt(&mut self, number: u8, segment: Segment) {
        self.table[number as usize] = Some(self.segments.len() as u8);
        self.segments.push(segment);
    }

    fn found(&self, segment: u8) -> Option<u8> {
        if segment as usize >= MAX_SEGMENTS {
            return None;
        }
        self.table[segment as usize]
    }

    fn charge(&self, tenant: u8) -> u64 {
        if tenant as usize >= 64 {
            return 0;
        }
        self.charges[tenant as usize]
    }

    /// The class of a request that the policy and the charge allow.
    fn fitting(&self, policy: &Policy, actor: u8, arena: u8, bytes: u64) -> Result<Class, Refused> {
        let Some(limit) = policy.limit(actor) else {
            return Err(Refused::Denied(Rule::Stranger));
        };
        if !policy.admits(arena, actor) {
            return Err(Refused::Denied(Rule::ForeignArena));
        }
        let Some(class) = class_of(words_of(bytes)) else {
            return Err(Refused::TooLarge);
        };
        let (bytes, charge) = (block_bytes(class), self.charge(actor));
        if bytes <= limit && charge <= limit - bytes {
            Ok(class)
        } else {
            Err(Refused::Denied(Rule::OverLimit))
        }
    }

    pub fn alloc(
        &mut self,
        policy: &Policy,
        actor: u8,
        arena: u8,
        bytes: u64,
    ) -> Result<Handle, Refused> {
        let class = self.fitting(policy, actor, arena, bytes)?;
        let page = self.page_for(arena, class).ok_or(Refused::NoRoom)?;
        Ok(self.give_out(arena, class, page, actor))
    }

    fn page_for(&mut self, arena: u8, class: Class) -> Option<u16> {
        if let Some(page) = self.queues.front(key(arena, class)) {
            return Some(page);
        }
        let mut segments = 0..MAX_SEGMENTS as u8;
        let page = segments.find_map(|segment| self.blank_in(segment, arena, class))?;
        let found = self.found((page / SEGMENT_PAGES as u16) as u8)?;
        self.segments[found as usize].assign_page((page % SEGMENT_PAGES as u16) as u8, class);
        requeue(&mut self.queues, arena, class, page, false);
        Some(page)
    }

    fn blank_in(&self, segment: u8, arena: u8, class: Class) -> Option<u16> {
        let held = &self.segments[self.found(segment)? as usize];
        if held.arena != arena {
            return None;
        }
        let page = held.first_begin(class)?;
        Some(u16::from(segment) * SEGMENT_PAGES as u16 + u16::from(page))
    }

    fn give_out(&mut self, arena: u8, class: Class, page: u16, owner: u8) -> Handle {
        let Some(found) = self.found((page / SEGMENT_PAGES as u16) as u8) else {
            unreachable!()
        };
        let segment = &mut self.segments[found as usize];
        let in_segment = (page % SEGMENT_PAGES as u16) as u8;
        let Some(handle) = segment.open_in(in_segment, owner) else {
            unreachable!()
        };
        let is_full = segment.is_full(in_segment);
        self.charges[owner as usize] += block_bytes(class);
        requeue(&mut self.queues, arena, class, page, is_full);
        handle
    }

    pub fn free_here(&mut self, policy: &Policy, actor: u8, handle: Handle) -> Result<(), Refused> {
        let Some(found) = self.found(handle.place.segment) else {
            return Err(Refused::Elsewhere);
        };
        let segment = &mut self.segments[found as usize];
        let owner = close_block(segment, policy, actor, handle).map_err(Refused::Denied)?;
        let Some(class) = segment.class_of(handle.place.page) else {
            unreachable!()
        };
        let is_full = segment.is_full(handle.place.page);
        let arena = segment.arena;
        self.charges[owner as usize] -= block_bytes(class);
        let page = page_of(handle.place);
        requeue(&mut self.queues, arena, class, page, is_full);
        Ok(())
    }

    pub fn read(
        &mut self,
        policy: &Policy,
        actor: u8,
        handle: Handle,
        index: u32,
    ) -> Result<u64, Refused> {
        let Some(found) = self.found(handle.place.segment) else {
            return Err(Refused::Elsewhere);
        };
        let segment = &self.segments[found as usize];
        reach(segment, policy, actor, Right::Read, handle, index)?;
        Ok(segment.read(handle.place.page, handle.place.index, index as u16))
    }

    pub fn write(
        &mut self,
        policy: &Policy,
        actor: u8,
        handle: Handle,
        index: u32,
        value: u64,
    ) -> Result<(), Refused> {
        let Some(found) = self.found(handle.place.segment) else {
            return Err(Refused::Elsewhere);
        };
        let segment = &mut self.segments[found as usize];
        reach(segment, policy, actor, Right::Write, handle, index)?;
        segment.write(handle.place.page, handle.place.index, index as u16, value);
        Ok(())
    }
}

/// Whether an actor may reach a word of a block.
#[inline(always)]
fn reach(
    segment: &Segment,
    policy: &Policy,
    actor: u8,
    right: Right,
    handle: Handle,
    index: u32,
) -> Result<(), Refused> {
    let word = segment.look(handle.place.page, handle.place.index);
    if let Some(rule) = policy.denial(actor, right, handle, word) {
        return Err(Refused::Denied(rule));
    }
    let Some(class) = segment.class_of(handle.place.page) else {
        unreachable!()
    };
    if index >= u32::from(class.words) {
        return Err(Refused::OutOfBlock);
    }
    Ok(())
}

/// Ends the life of a block of the segment, and tells its owner.
#[inline(always)]
fn close_block(
    segment: &mut Segment,
    policy: &Policy,
    actor: u8,
    handle: Handle,
) -> Result<u8, Rule> {
    let place = handle.place;
    let denied = |word| match policy.denial(actor, Right::Free, handle, word) {
        Some(rule) => rule,
        None => unreachable!(),
    };
    let Standing::Open(generation, owner) = segment.standing(place.page, place.index) else {
        return Err(denied(segment.look(place.page, place.index)));
    };
    let expected = pack(generation, owner, true);
    if policy
        .denial(actor, Right::Free, handle, expected)
        .is_some()
    {
        return Err(denied(segment.look(place.page, place.index)));
    }
    segment.close_here(place, expected).map_err(denied)?;
    Ok(word_owner(expected))
}
