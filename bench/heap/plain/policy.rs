//! Who may do what, as flat tables.

#[derive(Clone, Copy, PartialEq, Eq)]
pub enum Rule {
    Stranger,
    Stale(u32),
    AlreadyFreed,
    ForeignArena,
    Forbidden,
    NotGranted,
    OverLimit,
}

#[derive(Clone, Copy)]
pub enum Right {
    Read,
    Write,
    Free,
}

pub struct Policy {
    pub limits: Vec<u64>,
    /// Whom an arena admits, a bit for each tenant.
    pub admitted: Vec<u64>,
    /// The arena of each segment.
    pub segments: Vec<u8>,
    /// By owner and actor a bit for each right.
    pub granted: Vec<[u8; 64]>,
    /// The same of what is forbidden; empty where nothing is.
    pub forbidden: Vec<[u8; 64]>,
    pub max_generation: u32,
}

#[derive(Clone, Copy)]
pub struct Place {
    pub segment: u8,
    pub page: u8,
    pub index: u16,
}

#[derive(Clone, Copy)]
pub struct Handle {
    pub place: Place,
    pub generation: u32,
}

impl Policy {
    /// One tenant with so many bytes, and one arena of so many segments.
    pub fn of_one(limit: u64, segments: usize) -> Policy {
        let mut rights = [0; 64];
        rights[0] = 15;
        Policy {
            limits: vec![limit],
            admitted: vec![u64::MAX],
            segments: vec![0; segments],
            granted: vec![rights],
            forbidden: Vec::new(),
            max_generation: u32::MAX,
        }
    }

    pub fn limit(&self, tenant: u8) -> Option<u64> {
        self.limits.get(usize::from(tenant)).copied()
    }

    pub fn arena_of(&self, segment: u8) -> Option<u8> {
        self.segments.get(usize::from(segment)).copied()
    }

    pub fn admits(&self, arena: u8, actor: u8) -> bool {
        match self.admitted.get(usize::from(arena)) {
            Some(admitted) => usize::from(actor) < self.limits.len() && admitted >> actor & 1 == 1,
            None => false,
        }
    }

    /// Whether a table of rights has this one.
    fn has(&self, table: &[[u8; 64]], owner: u8, actor: u8, right: Right) -> bool {
        match table.get(usize::from(owner)) {
            Some(held) => {
                usize::from(actor) < self.limits.len()
                    && held[usize::from(actor)] >> right as u8 & 1 == 1
            }
            None => false,
        }
    }

    pub fn grants(&self, owner: u8, actor: u8, right: Right) -> bool {
        self.has(&self.granted, owner, actor, right)
    }

    pub fn forbids(&self, owner: u8, actor: u8, right: Right) -> bool {
        self.has(&self.forbidden, owner, actor, right)
    }

    /// The first rule that denies the use of a block, by the slot word of its place.
    #[inline(always)]
    pub fn denial(&self, actor: u8, right: Right, handle: Handle, word: u64) -> Option<Rule> {
        if self.limit(actor).is_none() {
            return Some(Rule::Stranger);
        }
        let Some(arena) = self.arena_of(handle.place.segment) else {
            return Some(Rule::Stale(0));
        };
        let generation = if word as u32 >= 128 {
            0
        } else {
            word_generation(word)
        };
        if generation != handle.generation {
            return Some(Rule::Stale(generation));
        }
        if word % 2 == 0 {
            return Some(Rule::AlreadyFreed);
        }
        if !self.admits(arena, actor) {
            return Some(Rule::ForeignArena);
        }
        let owner = word_owner(word);
        if self.forbids(owner, actor, right) {
            return Some(Rule::Forbidden);
        }
        if !self.grants(owner, actor, right) {
            return Some(Rule::NotGranted);
        }
        None
    }
}

pub fn pack(generation: u32, owner: u8, live: bool) -> u64 {
    u64::from(generation) << 32 | u64::from(owner) << 1 | u64::from(live)
}

pub fn word_generation(word: u64) -> u32 {
    (word >> 32) as u32
}

pub fn word_owner(word: u64) -> u8 {
    (word as u32 >> 1) as u8
}
