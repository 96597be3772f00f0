//! A remapping unit: its invalidation queue with its ITags, and its page request queue with the groups that are filed.

use crate::frames::Waiting;

pub const PLACES: usize = 64;

#[derive(Clone, Copy)]
pub enum Descriptor {
    /// of 2^order pages
    Invalidate { pasid: u8, order: u8, first: u64 },
    /// `binding`, where an unbinding submitted it, has its stage moved when it is done; frames wait for it in batches
    Wait { drain: bool, binding: Option<u32>, batches: Waiting },
}

/// A first in, first out queue of at most N.
pub struct Ring<T, const N: usize> {
    places: [T; N],
    front: usize,
    length: usize,
}

impl<T: Copy, const N: usize> Ring<T, N> {
    fn new(any: T) -> Ring<T, N> {
        Ring { places: [any; N], front: 0, length: 0 }
    }

    #[inline(always)]
    pub fn len(&self) -> usize {
        self.length
    }

    #[inline(always)]
    pub fn push(&mut self, last: T) {
        self.places[(self.front + self.length) % N] = last;
        self.length += 1;
    }

    #[inline(always)]
    pub fn head(&self) -> Option<T> {
        (self.length > 0).then(|| self.places[self.front % N])
    }

    /// Takes the head off, which has to be there.
    #[inline(always)]
    pub fn drop_head(&mut self) {
        self.front = (self.front + 1) % N;
        self.length -= 1;
    }

    pub fn clear(&mut self) {
        self.length = 0;
    }

    pub fn iter_mut(&mut self) -> impl Iterator<Item = &mut T> {
        let (behind, ahead) = self.places.split_at_mut(self.front);
        ahead.iter_mut().chain(behind).take(self.length)
    }
}

#[derive(Clone, Copy)]
pub struct PageRequest {
    pub pasid: u8,
    pub index: u8,
    pub write: bool,
    pub last: bool,
    pub page: u64,
}

/// The ITags of a unit.
pub struct ITags {
    busy: u32,
    /// how many completions have come, and how many are wanted: 0 before the first
    come: [u8; 32],
    wanted: [u8; 32],
}

impl ITags {
    #[inline(always)]
    pub fn are_all_free(&self) -> bool {
        self.busy == 0
    }

    /// Takes the lowest free one.
    #[inline(always)]
    pub fn take(&mut self) -> Option<u8> {
        let itag = self.busy.trailing_ones() as usize;
        if itag == 32 {
            return None;
        }
        self.busy |= 1 << itag;
        (self.come[itag], self.wanted[itag]) = (0, 0);
        Some(itag as u8)
    }

    /// A completion comes: how many ITags it frees.
    #[inline(always)]
    pub fn complete(&mut self, vector: u32, count: u8) -> u64 {
        let mut freed = 0;
        for itag in bits(vector & self.busy) {
            if self.wanted[itag] == 0 {
                self.wanted[itag] = count;
            }
            self.come[itag] += 1;
            if self.come[itag] == self.wanted[itag] {
                self.busy &= !(1 << itag);
                freed += 1;
            }
        }
        freed
    }

    pub fn free_all(&mut self) {
        self.busy = 0;
    }
}

/// What is filed under a group index: the binding, and each page with whether it is to be written.
#[derive(Default)]
pub struct Group {
    pub binding: u32,
    pub asked: Vec<(u64, bool)>,
}

pub struct Unit {
    pub is_open: bool,
    pub queue: Ring<Descriptor, PLACES>,
    pub itags: ITags,
    pub requests: Ring<PageRequest, 32>,
    /// the indices under which something is filed and not answered
    pub open_groups: u32,
    pub groups: [Group; 32],
    /// what waits for the end of the reset
    pub reset_ends: Waiting,
}

impl Unit {
    pub fn new() -> Unit {
        let no_wait = Descriptor::Wait { drain: false, binding: None, batches: Waiting::NOBODY };
        let no_request = PageRequest { pasid: 0, index: 0, write: false, last: false, page: 0 };
        Unit {
            is_open: true,
            queue: Ring::new(no_wait),
            itags: ITags { busy: 0, come: [0; 32], wanted: [0; 32] },
            requests: Ring::new(no_request),
            open_groups: 0,
            groups: Default::default(),
            reset_ends: Waiting::NOBODY,
        }
    }
}

/// the numbers of the bits that are set
#[inline(always)]
pub fn bits(of: u32) -> impl Iterator<Item = usize> {
    let mut left = of;
    std::iter::from_fn(move || {
        if left == 0 {
            return None;
        }
        let bit = left.trailing_zeros() as usize;
        left &= left - 1;
        Some(bit)
    })
}
