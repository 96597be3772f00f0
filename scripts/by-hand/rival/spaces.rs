//! Address spaces, their pages, and unmapping (MODEL's section 6).

use crate::bindings::Stage;
use crate::frames::{BatchId, Waiting};
use crate::pages::{Entry, Pages};
use crate::refusals::Refusal;
use crate::units::{Descriptor, Unit, PLACES};
use crate::world::{Done, World, PAGE_END};

pub const MOST_PAGES: usize = 1024;
const MOST_SPACES: usize = 64;
const MOST_IN_UNMAP: u64 = 48;
const MOST_ORDER: u64 = 9;

pub struct Space {
    pub number: u64,
    pub pages: Pages,
    /// the PASID that it bears, and how many unreleased bindings it has; it bears none where these are 0
    pub pasid: u8,
    pub bindings: u8,
}

/// Live spaces stand at places, and are found by their numbers.
pub struct Spaces {
    places: Vec<Space>,
    is_taken: u64,
    /// the place of each space that there was; None once it is gone
    place_of: Vec<Option<u8>>,
}

impl Spaces {
    pub fn new() -> Spaces {
        Spaces { places: Vec::new(), is_taken: 0, place_of: Vec::new() }
    }

    #[inline(always)]
    pub fn find(&self, number: u64) -> Result<usize, Refusal> {
        match self.place_of.get(number as usize) {
            Some(Some(place)) => Ok(*place as usize),
            _ => Err(Refusal::NoSuchSpace),
        }
    }

    #[inline(always)]
    pub fn at(&self, place: usize) -> &Space {
        &self.places[place]
    }

    #[inline(always)]
    pub fn at_mut(&mut self, place: usize) -> &mut Space {
        &mut self.places[place]
    }

    /// the number of a new space, where there is room
    fn begin(&mut self) -> Option<u64> {
        let place = self.is_taken.trailing_ones() as usize;
        if place == MOST_SPACES {
            return None;
        }
        let number = self.place_of.len() as u64;
        let space = Space { number, pages: Pages::new(), pasid: 0, bindings: 0 };
        match self.places.get_mut(place) {
            Some(old) => *old = space,
            None => self.places.push(space),
        }
        self.is_taken |= 1 << place;
        self.place_of.push(Some(place as u8));
        Some(number)
    }

    fn end(&mut self, place: usize) {
        self.place_of[self.places[place].number as usize] = None;
        self.is_taken &= !(1 << place);
    }
}

/// Pages that are unmapped at once: how many invalidations a unit gets for them, each of 2^order pages.
struct Unmapped {
    first: u64,
    order: u8,
    count: u64,
}

impl Unmapped {
    fn submit(&self, unit: &mut Unit, pasid: u8, batches: Waiting) {
        for first in (self.first..).take(self.count as usize) {
            unit.queue.push(Descriptor::Invalidate { pasid, order: self.order, first });
        }
        unit.queue.push(Descriptor::Wait { drain: false, binding: None, batches });
    }
}

impl World {
    pub fn space(&mut self) -> Done {
        let number = self.spaces.begin().ok_or(Refusal::TooManySpaces)?;
        self.report.line_of("space ", number);
        Ok(())
    }

    pub fn drop_space(&mut self, space: u64) -> Done {
        let place = self.spaces.find(space)?;
        if self.spaces.at(place).bindings > 0 {
            return Err(Refusal::StillBound);
        }
        self.spaces.at_mut(place).pages.take_all(|frame| self.frames.free(frame));
        self.spaces.end(place);
        self.report.line("gone");
        Ok(())
    }

    #[inline(always)]
    pub fn map(&mut self, space: u64, page: u64, write: bool) -> Done {
        let place = self.spaces.find(space)?;
        let pages = &mut self.spaces.at_mut(place).pages;
        if page >= PAGE_END {
            return Err(Refusal::PageRange);
        }
        if pages.get(page).is_some() {
            return Err(Refusal::Mapped);
        }
        if pages.count() == MOST_PAGES {
            return Err(Refusal::SpaceFull);
        }
        if self.frames.free_count() == 0 {
            return Err(Refusal::NoFrame);
        }
        let frame = self.frames.take();
        pages.map(page, Entry { frame, write });
        self.report.line_of("frame ", frame as u64);
        Ok(())
    }

    #[inline(always)]
    pub fn unmap(&mut self, space: u64, page: u64, count: u64) -> Done {
        let place = self.spaces.find(space)?;
        if !(1..=MOST_IN_UNMAP).contains(&count) {
            return Err(Refusal::BadCount);
        }
        if page >= PAGE_END || PAGE_END - page < count {
            return Err(Refusal::PageRange);
        }
        let pages = &self.spaces.at(place).pages;
        if (page..page + count).any(|page| pages.get(page).is_none()) {
            return Err(Refusal::NotMapped);
        }
        let batch = self.invalidate(place, &Unmapped { first: page, order: 0, count })?;
        self.report.put(if batch.is_some() { "withheld" } else { "free" });
        let pages = &mut self.spaces.at_mut(place).pages;
        for page in page..page + count {
            pages.take_in(page, 1, |frame| {
                match batch {
                    Some(batch) => self.frames.withhold(frame, batch),
                    None => self.frames.free(frame),
                }
                self.report.put(" ");
                self.report.number(frame as u64);
            });
        }
        self.report.end();
        Ok(())
    }

    #[inline(always)]
    pub fn unmap_range(&mut self, space: u64, page: u64, order: u64) -> Done {
        let place = self.spaces.find(space)?;
        if order > MOST_ORDER {
            return Err(Refusal::BadOrder);
        }
        let size = 1 << order;
        if page >= PAGE_END || PAGE_END - page < size {
            return Err(Refusal::PageRange);
        }
        if page % size != 0 {
            return Err(Refusal::NotAligned);
        }
        let count = self.spaces.at(place).pages.count_in(page, size);
        if count == 0 {
            return Err(Refusal::NothingMapped);
        }
        let batch = self.invalidate(place, &Unmapped { first: page, order: order as u8, count: 1 })?;
        self.spaces.at_mut(place).pages.take_in(page, size, |frame| match batch {
            Some(batch) => self.frames.withhold(frame, batch),
            None => self.frames.free(frame),
        });
        self.report.line_of(if batch.is_some() { "range withheld " } else { "range free " }, count);
        Ok(())
    }

    /// Submits to each unit what the table of section 6 says: the batch that waits then, if something is waited for.
    #[inline(always)]
    fn invalidate(&mut self, place: usize, unmapped: &Unmapped) -> Result<Option<BatchId>, Refusal> {
        let space = self.spaces.at(place);
        if space.bindings == 0 {
            return Ok(None);
        }
        let pasid = space.pasid;
        let lacks_room = |unit: &Unit| unit.is_open && unit.queue.len() + unmapped.count as usize + 1 > PLACES;
        for (unit, binding) in self.units.iter().zip(self.bearers[pasid as usize]) {
            let Some(binding) = binding else { continue };
            if self.bindings[binding as usize].stage <= Stage::Drained && lacks_room(unit) {
                return Err(Refusal::QueueFull);
            }
        }
        let mut batch = None;
        for (number, unit) in self.units.iter_mut().enumerate() {
            let Some(binding) = self.bearers[pasid as usize][number] else { continue };
            let stage = self.bindings[binding as usize].stage;
            if stage > Stage::Invalidating {
                continue;
            }
            let batch = *batch.get_or_insert_with(|| self.frames.new_batch());
            if !unit.is_open {
                self.frames.wait(batch, number, &mut unit.reset_ends);
            } else if stage == Stage::Invalidating {
                self.frames.wait(batch, number, unit.wait_of(binding));
            } else {
                let mut batches = Waiting::NOBODY;
                self.frames.wait(batch, number, &mut batches);
                unmapped.submit(unit, pasid, batches);
            }
        }
        Ok(batch)
    }
}
