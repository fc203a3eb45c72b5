//! Lists of numbered entries by key, doubly linked by number.

pub struct IndexLists {
    heads: Box<[u16]>,
    next: Box<[u16]>,
    prev: Box<[u16]>,
    owner: Box<[u16]>,
}

impl IndexLists {
    pub fn new(entries: usize, keys: usize) -> IndexLists {
        IndexLists {
            heads: vec![0; keys].into_boxed_slice(),
            next: vec![0; entries].into_boxed_slice(),
            prev: vec![0; entries].into_boxed_slice(),
            owner: vec![0; entries].into_boxed_slice(),
        }
    }

    pub fn push_front(&mut self, key: u16, entry: u16) {
        let head = self.heads[key as usize];
        self.next[entry as usize] = head;
        self.prev[entry as usize] = 0;
        if head != 0 {
            self.prev[head as usize - 1] = entry + 1;
        }
        self.owner[entry as usize] = key + 1;
        self.heads[key as usize] = entry + 1;
    }

    pub fn remove(&mut self, entry: u16) {
        let owner = self.owner[entry as usize];
        if owner == 0 {
            return;
        }
        let before = self.prev[entry as usize];
        let after = self.next[entry as usize];
        if before == 0 {
            self.heads[owner as usize - 1] = after;
        } else {
            self.next[before as usize - 1] = after;
        }
        if after != 0 {
            self.prev[after as usize - 1] = before;
        }
        self.owner[entry as usize] = 0;
    }

    pub fn front(&self, key: u16) -> Option<u16> {
        self.heads[key as usize].checked_sub(1)
    }

    pub fn has(&self, entry: u16) -> bool {
        self.owner[entry as usize] != 0
    }
}
