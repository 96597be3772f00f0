//! Page requests that are filed, jobs and replies (MODEL's section 9).

use crate::bindings::Stage;
use crate::link::Body;
use crate::pages::Entry;
use crate::refusals::Refusal;
use crate::spaces::MOST_PAGES;
use crate::steps::Code;
use crate::world::{Done, World};

/// A group that is whole, filed under an index of an endpoint.
#[derive(Clone, Copy)]
pub struct Job {
    pub endpoint: u8,
    index: u8,
    binding: u32,
}

/// Pages that aren't mapped, each once, with whether one of its requests is to write. (A group has at most 32.)
#[derive(Default)]
struct Missing {
    pages: [(u64, bool); 32],
    count: usize,
}

impl Missing {
    #[inline(always)]
    fn add(&mut self, page: u64, write: bool) {
        match self.pages[..self.count].iter_mut().find(|missing| missing.0 == page) {
            Some(missing) => missing.1 |= write,
            None => {
                self.pages[self.count] = (page, write);
                self.count += 1;
            }
        }
    }
}

impl World {
    #[inline(always)]
    pub fn serve(&mut self, endpoint: u64) -> Done {
        let number = self.endpoint(endpoint)?;
        let unit = &mut self.units[number];
        if !unit.is_open {
            return Err(Refusal::Resetting);
        }
        let Some(request) = unit.requests.head() else {
            self.report.line("empty");
            return Ok(());
        };
        unit.requests.drop_head();
        let index = request.index as usize;
        let group = &mut unit.groups[index];
        if unit.open_groups >> index & 1 == 0 {
            unit.open_groups |= 1 << index;
            group.binding = self.bearers[request.pasid as usize][number].expect("the sender is there up to its reset");
            group.asked.clear();
        }
        group.asked.push((request.page, request.write));
        if request.last {
            self.jobs.push_back(Job { endpoint: number as u8, index: request.index, binding: group.binding });
        }
        self.report.line(if request.last { "job" } else { "part" });
        Ok(())
    }

    /// the place of the worker's hand
    fn worker(&self, number: u64) -> Result<usize, Refusal> {
        if number < self.hands.len() as u64 {
            Ok(number as usize)
        } else {
            Err(Refusal::NoSuchWorker)
        }
    }

    pub fn take_job(&mut self, worker: u64) -> Done {
        let hand = self.worker(worker)?;
        if self.hands[hand].is_some() {
            return Err(Refusal::HandsFull);
        }
        let job = self.jobs.pop_front().ok_or(Refusal::NoJob)?;
        self.hands[hand] = Some(job);
        let group = &self.units[job.endpoint as usize].groups[job.index as usize];
        self.report.put("job binding ");
        self.report.number(job.binding as u64);
        self.report.put(" group ");
        self.report.number(job.index as u64);
        self.report.line_of(" pages ", group.asked.len() as u64);
        Ok(())
    }

    /// The code of the response to a job; None where there is none.
    fn code_of(&self, job: Job, verdict: Code) -> Option<Code> {
        let is_open = self.units[job.endpoint as usize].is_open;
        match self.bindings[job.binding as usize].stage {
            Stage::Live if is_open => Some(verdict),
            Stage::Stopping | Stage::Marked | Stage::Draining | Stage::Drained if is_open => Some(Code::Invalid),
            _ => None,
        }
    }

    pub fn answer(&mut self, worker: u64, verdict: Code) -> Done {
        let hand = self.worker(worker)?;
        let job = self.hands[hand].ok_or(Refusal::NoJob)?;
        let code = self.code_of(job, verdict);
        match code {
            None => self.report.line("dropped"),
            Some(Code::Success) => {
                let mapped = self.map_asked(job)?;
                self.report.line_of("success ", mapped);
            }
            Some(Code::Invalid) => self.report.line("invalid"),
            Some(Code::Failure) => self.report.line("failure"),
        }
        if let Some(code) = code {
            self.units[job.endpoint as usize].open_groups &= !(1 << job.index);
            self.link.send(job.endpoint as usize, Body::Response { index: job.index, code });
        }
        self.hands[hand] = None;
        Ok(())
    }

    /// Maps what is asked for and isn't mapped: how many pages.
    fn map_asked(&mut self, job: Job) -> Result<u64, Refusal> {
        let place = self.bindings[job.binding as usize].space as usize;
        let pages = &mut self.spaces.at_mut(place).pages;
        let mut missing = Missing::default();
        for (page, write) in &self.units[job.endpoint as usize].groups[job.index as usize].asked {
            match pages.get(*page) {
                Some(entry) if *write && !entry.write => return Err(Refusal::BadVerdict),
                Some(_) => {}
                None => missing.add(*page, *write),
            }
        }
        if self.frames.free_count() < missing.count {
            return Err(Refusal::NoFrame);
        }
        if pages.count() + missing.count > MOST_PAGES {
            return Err(Refusal::SpaceFull);
        }
        for (page, write) in &missing.pages[..missing.count] {
            let frame = self.frames.take();
            pages.map(*page, Entry { frame, write: *write });
        }
        Ok(missing.count as u64)
    }
}
