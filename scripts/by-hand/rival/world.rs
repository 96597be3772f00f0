//! All that is kept, and which function takes which step. An accepted step writes its answer into the report.

use crate::bindings::Binding;
use crate::endpoints::Endpoint;
use crate::frames::{Frames, Place};
use crate::jobs::Job;
use crate::link::Link;
use crate::refusals::Refusal;
use crate::report::Report;
use crate::spaces::Spaces;
use crate::steps::{Config, Step};
use crate::units::Unit;
use std::collections::VecDeque;

pub const PAGE_END: u64 = 1 << 36;

/// A step is refused and has changed nothing, or it is done and its answer written.
pub type Done = Result<(), Refusal>;

pub struct World {
    pub report: Report,
    pub frames: Frames,
    pub spaces: Spaces,
    /// by their numbers, also those that are released
    pub bindings: Vec<Binding>,
    /// which unreleased binding bears a PASID at an endpoint
    pub bearers: [[Option<u32>; 8]; 33],
    pub units: Vec<Unit>,
    pub endpoints: Vec<Endpoint>,
    pub link: Link,
    pub jobs: VecDeque<Job>,
    /// what each worker holds
    pub hands: Vec<Option<Job>>,
}

impl World {
    pub fn new(config: Config) -> World {
        World {
            report: Report::new(),
            frames: Frames::new(config.frames as usize),
            spaces: Spaces::new(),
            bindings: Vec::new(),
            bearers: [[None; 8]; 33],
            units: (0..config.endpoints).map(|_| Unit::new()).collect(),
            endpoints: (0..config.endpoints).map(|_| Endpoint::new()).collect(),
            link: Link::new(),
            jobs: VecDeque::new(),
            hands: vec![None; config.workers as usize],
        }
    }

    /// Takes a step, and writes its line of the report.
    #[inline(always)]
    pub fn take(&mut self, step: Step) {
        if let Err(refusal) = self.apply(step) {
            self.report.refused(refusal);
        }
    }

    #[inline(always)]
    fn apply(&mut self, step: Step) -> Done {
        match step {
            Step::Space => self.space(),
            Step::Drop { space } => self.drop_space(space),
            Step::Map { space, page, write } => self.map(space, page, write),
            Step::Unmap { space, page, count } => self.unmap(space, page, count),
            Step::UnmapRange { space, page, order } => self.unmap_range(space, page, order),
            Step::Bind { endpoint, space } => self.bind(endpoint, space),
            Step::Unbind { binding } => self.unbind(binding),
            Step::Advance { binding } => self.advance(binding),
            Step::Pump { endpoint } => self.pump(endpoint),
            Step::Serve { endpoint } => self.serve(endpoint),
            Step::Reset { endpoint } => self.reset(endpoint),
            Step::Take { worker } => self.take_job(worker),
            Step::Answer { worker, verdict } => self.answer(worker, verdict),
            Step::Ask { endpoint, pasid, page } => self.ask(endpoint, pasid, page),
            Step::Use { endpoint, pasid, page, write } => self.begin_use(endpoint, pasid, page, write),
            Step::End { endpoint, slot } => self.end_use(endpoint, slot),
            Step::Evict { endpoint, pasid, page } => self.evict(endpoint, pasid, page),
            Step::Fault { endpoint, pasid, page, write, group, last } => {
                self.fault((endpoint, pasid, page), write, group, last)
            }
            Step::Finish { endpoint, vector, count } => self.finish(endpoint, vector, count),
            Step::Quit { endpoint, pasid } => self.quit(endpoint, pasid),
            Step::Deliver { message } => self.deliver(message),
            Step::Look { frame } => self.look(frame),
            Step::Bearer { pasid } => self.bearer(pasid),
        }
    }

    fn look(&mut self, frame: u64) -> Done {
        self.report.line(match self.frames.place(frame).ok_or(Refusal::NoFrame)? {
            Place::Free => "free",
            Place::Mapped => "mapped",
            Place::Withheld => "withheld",
        });
        Ok(())
    }

    /// The report, with its last line.
    pub fn into_report(mut self) -> Vec<u8> {
        let (free, withheld) = (self.frames.free_count(), self.frames.withheld_count());
        self.report.put("free ");
        self.report.number(free as u64);
        self.report.put(" mapped ");
        self.report.number((self.frames.count() - free - withheld) as u64);
        self.report.line_of(" withheld ", withheld as u64);
        self.report.into_bytes()
    }
}
