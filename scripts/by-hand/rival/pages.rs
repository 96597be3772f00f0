//! The pages of a space: blocks of 64 pages, found by the upper bits of a page number.

use crate::map::Map;

/// A frame, and whether it may be written.
#[derive(Clone, Copy)]
pub struct Entry {
    pub frame: u16,
    pub write: bool,
}

impl Entry {
    pub fn to_bits(self) -> u16 {
        self.frame << 1 | self.write as u16
    }

    pub fn of_bits(bits: u16) -> Entry {
        Entry { frame: bits >> 1, write: bits & 1 == 1 }
    }
}

struct Block {
    mapped: u64,
    entries: [u16; 64],
}

pub struct Pages {
    blocks: Vec<Block>,
    index: Map,
    spare: Vec<u16>,
    count: usize,
}

/// the bits of a block for those of `size` pages from `page` on that are in its block; `size` is a power of two
fn mask(page: u64, size: u64) -> u64 {
    if size >= 64 {
        u64::MAX
    } else {
        ((1 << size) - 1) << (page % 64)
    }
}

impl Pages {
    pub fn new() -> Pages {
        Pages { blocks: Vec::new(), index: Map::new(4), spare: Vec::new(), count: 0 }
    }

    pub fn count(&self) -> usize {
        self.count
    }

    #[inline(always)]
    pub fn get(&self, page: u64) -> Option<Entry> {
        let block = &self.blocks[self.index.get(page / 64)? as usize];
        if block.mapped >> (page % 64) & 1 == 0 {
            return None;
        }
        Some(Entry::of_bits(block.entries[page as usize % 64]))
    }

    /// Maps a page that isn't mapped.
    #[inline(always)]
    pub fn map(&mut self, page: u64, entry: Entry) {
        let number = match self.index.get(page / 64) {
            Some(number) => number,
            None => self.new_block(page / 64),
        };
        let block = &mut self.blocks[number as usize];
        block.mapped |= 1 << (page % 64);
        block.entries[page as usize % 64] = entry.to_bits();
        self.count += 1;
    }

    fn new_block(&mut self, upper: u64) -> u16 {
        let number = self.spare.pop().unwrap_or_else(|| {
            self.blocks.push(Block { mapped: 0, entries: [0; 64] });
            (self.blocks.len() - 1) as u16
        });
        self.index.put(upper, number);
        number
    }

    /// how many are mapped of `size` pages, a power of two, from the multiple `first` of it on
    pub fn count_in(&self, first: u64, size: u64) -> u64 {
        let mut mapped = 0;
        for upper in first / 64..=(first + size - 1) / 64 {
            if let Some(number) = self.index.get(upper) {
                mapped += (self.blocks[number as usize].mapped & mask(first, size)).count_ones();
            }
        }
        mapped as u64
    }

    /// Takes out what is mapped of these, and hands each frame on.
    #[inline(always)]
    pub fn take_in(&mut self, first: u64, size: u64, mut each: impl FnMut(u16)) {
        for upper in first / 64..=(first + size - 1) / 64 {
            let Some(number) = self.index.get(upper) else { continue };
            let block = &mut self.blocks[number as usize];
            let mut taken = block.mapped & mask(first, size);
            block.mapped &= !taken;
            let is_empty = block.mapped == 0;
            self.count -= taken.count_ones() as usize;
            while taken != 0 {
                each(Entry::of_bits(block.entries[taken.trailing_zeros() as usize]).frame);
                taken &= taken - 1;
            }
            if is_empty {
                self.index.remove(upper);
                self.spare.push(number);
            }
        }
    }

    /// Takes out all, and hands each frame on.
    pub fn take_all(&mut self, mut each: impl FnMut(u16)) {
        for number in self.index.values() {
            let block = &self.blocks[number as usize];
            let mut left = block.mapped;
            while left != 0 {
                each(Entry::of_bits(block.entries[left.trailing_zeros() as usize]).frame);
                left &= left - 1;
            }
        }
        *self = Pages::new();
    }
}
