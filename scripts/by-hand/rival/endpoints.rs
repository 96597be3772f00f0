//! An endpoint: its translations, requests, uses, invalidations and groups (MODEL's section 11), and its steps.

use crate::link::Body;
use crate::map::Map;
use crate::pages::Entry;
use crate::refusals::Refusal;
use crate::units::bits;
use crate::world::{Done, World, PAGE_END};

#[derive(Clone, Copy, PartialEq)]
pub enum PasidState {
    Off,
    On,
    Stopping,
}

const MOST_HELD: usize = 64;
const MOST_REQUESTS: u8 = 32;

/// A page of a PASID, of a request that is out or of a use.
#[derive(Clone, Copy, Default)]
struct Of {
    pasid: u8,
    page: u64,
}

pub struct Endpoint {
    pasids: [PasidState; 33],
    /// the held translations, by page and PASID
    held: Map,
    tags: u32,
    doomed: u32,
    asked: [Of; 32],
    /// the slots that are taken, and those whose use a reset has ended
    uses: u16,
    dead: u16,
    used: [Of; 16],
    taken: u32,
    /// the running uses that each taken invalidation noted
    noted: [u16; 32],
    unfinished: u32,
    awaiting: u32,
    stale: u32,
    group_pasids: [u8; 32],
    group_requests: [u8; 32],
    outstanding: u8,
    is_disabled: bool,
}

#[inline(always)]
fn key(pasid: u64, page: u64) -> u64 {
    page << 6 | pasid
}

impl Endpoint {
    pub fn new() -> Endpoint {
        Endpoint {
            pasids: [PasidState::Off; 33],
            held: Map::new(7),
            tags: 0,
            doomed: 0,
            asked: Default::default(),
            uses: 0,
            dead: 0,
            used: Default::default(),
            taken: 0,
            noted: [0; 32],
            unfinished: 0,
            awaiting: 0,
            stale: 0,
            group_pasids: [0; 32],
            group_requests: [0; 32],
            outstanding: 0,
            is_disabled: false,
        }
    }

    #[inline(always)]
    fn state(&self, pasid: u64) -> PasidState {
        self.pasids.get(pasid as usize).copied().unwrap_or(PasidState::Off)
    }

    /// Whether it may ask for a page under a PASID, or use one.
    #[inline(always)]
    fn may_access(&self, pasid: u64, page: u64) -> Result<(), Refusal> {
        if page >= PAGE_END {
            return Err(Refusal::PageRange);
        }
        if self.state(pasid) != PasidState::On {
            return Err(Refusal::NotStarted);
        }
        Ok(())
    }

    pub fn set_state(&mut self, pasid: u8, state: PasidState) {
        self.pasids[pasid as usize] = state;
    }

    /// It clears itself; the slots of uses stay taken.
    pub fn reset(&mut self) {
        self.pasids = [PasidState::Off; 33];
        self.held.clear();
        self.tags = 0;
        self.dead = self.uses;
        (self.taken, self.noted) = (0, [0; 32]);
        (self.unfinished, self.awaiting, self.stale) = (0, 0, 0);
        (self.outstanding, self.is_disabled) = (0, false);
    }

    /// A completion arrives: the answer.
    #[inline(always)]
    pub fn complete(&mut self, tag: u8, entry: Option<Entry>) -> &'static str {
        let bit = 1 << tag;
        if self.tags & bit == 0 {
            return "dropped";
        }
        self.tags &= !bit;
        if self.doomed & bit != 0 {
            return "dropped";
        }
        let Some(entry) = entry else { return "none" };
        let Of { pasid, page } = self.asked[tag as usize];
        let key = key(pasid as u64, page);
        if self.held.len() == MOST_HELD && self.held.get(key).is_none() {
            return "full";
        }
        self.held.put(key, entry.to_bits());
        "held"
    }

    /// An invalidation of 2^order pages arrives.
    #[inline(always)]
    pub fn invalidate(&mut self, itag: u8, pasid: u8, first: u64, order: u8) {
        let size = 1 << order;
        if self.held.len() > 0 {
            self.forget(pasid as u64, first, size);
        }
        let covers = |of: Of| of.pasid == pasid && of.page.wrapping_sub(first) < size;
        for tag in bits(self.tags) {
            if covers(self.asked[tag]) {
                self.doomed |= 1 << tag;
            }
        }
        let mut noted = 0;
        for slot in bits((self.uses & !self.dead) as u32) {
            if covers(self.used[slot % 16]) {
                noted |= 1 << slot;
            }
        }
        self.taken |= 1 << itag;
        self.noted[itag as usize] = noted;
    }

    /// What is held of these pages goes: each is looked for, or each that is held looked at.
    #[inline(always)]
    fn forget(&mut self, pasid: u64, first: u64, size: u64) {
        if size <= 8 {
            for page in first..first + size {
                self.held.remove(key(pasid, page));
            }
        } else {
            self.held.remove_where(|key| key & 63 == pasid && (key >> 6).wrapping_sub(first) < size);
        }
    }

    /// A response arrives: the answer.
    pub fn respond(&mut self, index: u8, disables: bool) -> &'static str {
        let bit = 1 << index;
        let answer = if self.stale & bit != 0 { "stale" } else { "answered" };
        self.awaiting &= !bit;
        self.stale &= !bit;
        self.outstanding -= self.group_requests[index as usize];
        self.is_disabled |= disables;
        answer
    }

    /// the index of a new group, or of this one where it goes on
    #[inline(always)]
    fn index(&self, group: Option<u64>, pasid: u64) -> Result<usize, Refusal> {
        let Some(index) = group else {
            return Ok((self.unfinished | self.awaiting | self.stale).trailing_ones() as usize);
        };
        let goes_on =
            index < 32 && self.unfinished >> index & 1 == 1 && self.group_pasids[index as usize] as u64 == pasid;
        if goes_on {
            Ok(index as usize)
        } else {
            Err(Refusal::NoSuchGroup)
        }
    }

    /// A request joins a group, which it may begin.
    #[inline(always)]
    fn request(&mut self, index: usize, pasid: u8, last: bool) {
        let bit = 1 << index;
        if self.unfinished & bit == 0 {
            self.group_pasids[index] = pasid;
            self.group_requests[index] = 0;
        }
        if last {
            self.unfinished &= !bit;
            self.awaiting |= bit;
        } else {
            self.unfinished |= bit;
        }
        self.group_requests[index] += 1;
        self.outstanding += 1;
    }

    /// whether an unfinished group, a request or a running use is of the PASID
    fn is_busy(&self, pasid: u8) -> bool {
        bits(self.unfinished).any(|index| self.group_pasids[index] == pasid)
            || bits(self.tags).any(|tag| self.asked[tag].pasid == pasid)
            || bits((self.uses & !self.dead) as u32).any(|slot| self.used[slot].pasid == pasid)
    }
}

impl World {
    /// the endpoint of this number
    #[inline(always)]
    pub fn endpoint(&self, number: u64) -> Result<usize, Refusal> {
        if number < self.endpoints.len() as u64 {
            Ok(number as usize)
        } else {
            Err(Refusal::NoSuchEndpoint)
        }
    }

    #[inline(always)]
    pub fn ask(&mut self, endpoint: u64, pasid: u64, page: u64) -> Done {
        let number = self.endpoint(endpoint)?;
        let endpoint = &mut self.endpoints[number];
        endpoint.may_access(pasid, page)?;
        let tag = endpoint.tags.trailing_ones() as usize;
        if tag == 32 {
            return Err(Refusal::NoTag);
        }
        endpoint.tags |= 1 << tag;
        endpoint.doomed &= !(1 << tag);
        endpoint.asked[tag] = Of { pasid: pasid as u8, page };
        self.link.send(number, Body::Request { tag: tag as u8, pasid: pasid as u8, page });
        self.report.line_of("tag ", tag as u64);
        Ok(())
    }

    #[inline(always)]
    pub fn begin_use(&mut self, endpoint: u64, pasid: u64, page: u64, write: bool) -> Done {
        let number = self.endpoint(endpoint)?;
        let endpoint = &mut self.endpoints[number];
        endpoint.may_access(pasid, page)?;
        let held = Entry::of_bits(endpoint.held.get(key(pasid, page)).ok_or(Refusal::NotHeld)?);
        if write && !held.write {
            return Err(Refusal::ReadOnly);
        }
        let slot = endpoint.uses.trailing_ones() as usize;
        if slot == 16 {
            return Err(Refusal::NoUseSlot);
        }
        endpoint.uses |= 1 << slot;
        endpoint.dead &= !(1 << slot);
        endpoint.used[slot] = Of { pasid: pasid as u8, page };
        self.report.put("use ");
        self.report.number(slot as u64);
        self.report.line_of(" frame ", held.frame as u64);
        Ok(())
    }

    #[inline(always)]
    pub fn end_use(&mut self, endpoint: u64, slot: u64) -> Done {
        let number = self.endpoint(endpoint)?;
        let endpoint = &mut self.endpoints[number];
        if slot >= 16 || endpoint.uses >> slot & 1 == 0 {
            return Err(Refusal::NoSuchUse);
        }
        let bit = 1 << slot;
        endpoint.uses &= !bit;
        endpoint.noted.iter_mut().for_each(|noted| *noted &= !bit);
        self.report.line(if endpoint.dead & bit != 0 { "dead" } else { "ended" });
        Ok(())
    }

    pub fn evict(&mut self, endpoint: u64, pasid: u64, page: u64) -> Done {
        let number = self.endpoint(endpoint)?;
        if page >= PAGE_END {
            return Err(Refusal::PageRange);
        }
        if pasid > 32 || !self.endpoints[number].held.remove(key(pasid, page)) {
            return Err(Refusal::NotHeld);
        }
        self.report.line("evicted");
        Ok(())
    }

    #[inline(always)]
    pub fn fault(&mut self, at: (u64, u64, u64), write: bool, group: Option<u64>, last: bool) -> Done {
        let (endpoint, pasid, page) = at;
        let number = self.endpoint(endpoint)?;
        let endpoint = &mut self.endpoints[number];
        if page >= PAGE_END {
            return Err(Refusal::PageRange);
        }
        match endpoint.state(pasid) {
            PasidState::On => {}
            PasidState::Stopping if group.is_some() => {}
            _ => return Err(Refusal::NotStarted),
        }
        if endpoint.outstanding == MOST_REQUESTS {
            return Err(Refusal::NoCredit);
        }
        let index = endpoint.index(group, pasid)?;
        if endpoint.is_disabled {
            return Err(Refusal::PriDisabled);
        }
        let pasid = pasid as u8;
        endpoint.request(index, pasid, last);
        self.link.send(number, Body::PageRequest { pasid, index: index as u8, write, last, page });
        self.report.line_of("group ", index as u64);
        Ok(())
    }

    #[inline(always)]
    pub fn finish(&mut self, endpoint: u64, vector: u32, count: u64) -> Done {
        let number = self.endpoint(endpoint)?;
        let endpoint = &mut self.endpoints[number];
        if vector == 0 || vector & !endpoint.taken != 0 {
            return Err(Refusal::NotPending);
        }
        if bits(vector).any(|itag| endpoint.noted[itag] != 0) {
            return Err(Refusal::InUse);
        }
        if !(1..=8).contains(&count) {
            return Err(Refusal::BadCount);
        }
        endpoint.taken &= !vector;
        for _ in 0..count {
            self.link.send(number, Body::Invalidated { vector, count: count as u8 });
        }
        self.report.line_of("sent ", count);
        Ok(())
    }

    pub fn quit(&mut self, endpoint: u64, pasid: u64) -> Done {
        let number = self.endpoint(endpoint)?;
        let endpoint = &mut self.endpoints[number];
        if endpoint.state(pasid) != PasidState::Stopping {
            return Err(Refusal::NotStopping);
        }
        let pasid = pasid as u8;
        if endpoint.is_busy(pasid) {
            return Err(Refusal::Busy);
        }
        endpoint.set_state(pasid, PasidState::Off);
        for index in bits(endpoint.awaiting).filter(|index| endpoint.group_pasids[*index] == pasid) {
            endpoint.stale |= 1 << index;
        }
        endpoint.awaiting &= !endpoint.stale;
        self.link.send(number, Body::Marker { pasid });
        self.report.line("marker");
        Ok(())
    }
}
