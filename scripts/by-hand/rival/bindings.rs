//! Bindings and their stages (MODEL's section 5), the invalidation queue, and resets.

use crate::frames::Waiting;
use crate::link::Body;
use crate::refusals::Refusal;
use crate::units::{bits, Descriptor, Unit, PLACES};
use crate::world::{Done, World};

/// The stages up to Invalidating have something to wait for, and those up to Drained get descriptors.
#[derive(Clone, Copy, PartialEq, PartialOrd)]
pub enum Stage {
    Live,
    Stopping,
    /// Stopping, and its marker is noted
    Marked,
    Draining,
    /// Draining, and its wait is done
    Drained,
    Invalidating,
    /// Invalidating, and its wait is done
    Invalidated,
    Quiet,
    Lost,
    Released,
}

#[derive(Clone, Copy)]
pub struct Binding {
    pub endpoint: u8,
    /// the place of its space
    pub space: u8,
    pub pasid: u8,
    pub stage: Stage,
}

const ALL_PAGES: u8 = 36;

impl Unit {
    /// What waits for the wait of a binding that is Invalidating.
    pub fn wait_of(&mut self, of: u32) -> &mut Waiting {
        let mut found = self.queue.iter_mut().filter_map(|descriptor| match descriptor {
            Descriptor::Wait { binding: Some(binding), batches, .. } if *binding == of => Some(batches),
            _ => None,
        });
        found.next().expect("a binding that is Invalidating has a wait in the queue")
    }
}

impl World {
    pub fn bind(&mut self, endpoint: u64, space: u64) -> Done {
        let number = self.endpoint(endpoint)?;
        let place = self.spaces.find(space)?;
        if !self.units[number].is_open {
            return Err(Refusal::Resetting);
        }
        let space = self.spaces.at(place);
        let pasid = if space.bindings == 0 {
            self.lowest_pasid().ok_or(Refusal::NoPasid)?
        } else if self.bearers[space.pasid as usize][number].is_some() {
            return Err(Refusal::AlreadyBound);
        } else {
            space.pasid
        };
        let binding = self.bindings.len() as u32;
        self.bindings.push(Binding { endpoint: number as u8, space: place as u8, pasid, stage: Stage::Live });
        self.bearers[pasid as usize][number] = Some(binding);
        let space = self.spaces.at_mut(place);
        space.pasid = pasid;
        space.bindings += 1;
        self.link.send(number, Body::Start { pasid });
        self.report.put("binding ");
        self.report.number(binding as u64);
        self.report.line_of(" pasid ", pasid as u64);
        Ok(())
    }

    /// the lowest PASID that no space bears
    fn lowest_pasid(&self) -> Option<u8> {
        (1..=32).find(|pasid| self.bearers[*pasid as usize].iter().all(Option::is_none))
    }

    /// an unreleased binding
    #[inline(always)]
    fn binding(&self, number: u64) -> Result<Binding, Refusal> {
        match self.bindings.get(number as usize) {
            Some(binding) if binding.stage != Stage::Released => Ok(*binding),
            _ => Err(Refusal::NoSuchBinding),
        }
    }

    #[inline(always)]
    fn set_stage(&mut self, binding: u64, stage: Stage) {
        self.bindings[binding as usize].stage = stage;
    }

    pub fn unbind(&mut self, number: u64) -> Done {
        let Binding { endpoint, pasid, stage, .. } = self.binding(number)?;
        match stage {
            Stage::Lost => {
                self.set_stage(number, Stage::Quiet);
                self.report.line("quiet");
            }
            Stage::Live if !self.units[endpoint as usize].is_open => return Err(Refusal::Resetting),
            Stage::Live => {
                self.set_stage(number, Stage::Stopping);
                self.link.send(endpoint as usize, Body::Stop { pasid });
                self.report.line("stopping");
            }
            _ => return Err(Refusal::NotLive),
        }
        Ok(())
    }

    pub fn advance(&mut self, number: u64) -> Done {
        let binding = self.binding(number)?;
        if binding.stage != Stage::Quiet && !self.units[binding.endpoint as usize].is_open {
            return Err(Refusal::Resetting);
        }
        let (stage, answer) = match binding.stage {
            Stage::Marked => (self.drain(number, binding)?, "draining"),
            Stage::Drained => (self.invalidate_all(number, binding)?, "invalidating"),
            Stage::Invalidated => (Stage::Quiet, "quiet"),
            Stage::Quiet => (self.release(binding), "released"),
            _ => return Err(Refusal::NotYet),
        };
        self.set_stage(number, stage);
        self.report.line(answer);
        Ok(())
    }

    fn drain(&mut self, number: u64, binding: Binding) -> Result<Stage, Refusal> {
        let queue = &mut self.units[binding.endpoint as usize].queue;
        if queue.len() + 1 > PLACES {
            return Err(Refusal::QueueFull);
        }
        queue.push(Descriptor::Wait { drain: true, binding: Some(number as u32), batches: Waiting::NOBODY });
        Ok(Stage::Draining)
    }

    fn invalidate_all(&mut self, number: u64, binding: Binding) -> Result<Stage, Refusal> {
        let unit = &mut self.units[binding.endpoint as usize];
        if bits(unit.open_groups).any(|index| unit.groups[index].binding == number as u32) {
            return Err(Refusal::NotYet);
        }
        if unit.queue.len() + 2 > PLACES {
            return Err(Refusal::QueueFull);
        }
        unit.queue.push(Descriptor::Invalidate { pasid: binding.pasid, order: ALL_PAGES, first: 0 });
        unit.queue.push(Descriptor::Wait { drain: false, binding: Some(number as u32), batches: Waiting::NOBODY });
        Ok(Stage::Invalidating)
    }

    fn release(&mut self, binding: Binding) -> Stage {
        self.bearers[binding.pasid as usize][binding.endpoint as usize] = None;
        self.spaces.at_mut(binding.space as usize).bindings -= 1;
        Stage::Released
    }

    pub fn bearer(&mut self, pasid: u64) -> Done {
        if !(1..=32).contains(&pasid) {
            return Err(Refusal::BadPasid);
        }
        let Some(binding) = self.bearers[pasid as usize].iter().flatten().next() else {
            self.report.line("bearer none");
            return Ok(());
        };
        let space = self.spaces.at(self.bindings[*binding as usize].space as usize);
        self.report.put("bearer ");
        self.report.number(space.number);
        self.report.line_of(" bindings ", space.bindings as u64);
        Ok(())
    }

    #[inline(always)]
    pub fn pump(&mut self, endpoint: u64) -> Done {
        let number = self.endpoint(endpoint)?;
        let unit = &mut self.units[number];
        if !unit.is_open {
            return Err(Refusal::Resetting);
        }
        match unit.queue.head() {
            None => self.report.line("idle"),
            Some(Descriptor::Invalidate { pasid, order, first }) => match unit.itags.take() {
                None => self.report.line("blocked"),
                Some(itag) => {
                    unit.queue.drop_head();
                    self.link.send(number, Body::Invalidate { itag, pasid, order, first });
                    self.report.line_of("itag ", itag as u64);
                }
            },
            Some(Descriptor::Wait { drain, binding, batches }) => {
                if !unit.itags.are_all_free() || drain && unit.requests.len() > 0 {
                    self.report.line("blocked");
                    return Ok(());
                }
                unit.queue.drop_head();
                if let Some(binding) = binding {
                    let stage = if drain { Stage::Drained } else { Stage::Invalidated };
                    self.bindings[binding as usize].stage = stage;
                }
                self.frames.settle(number, batches);
                self.report.line("wait done");
            }
        }
        Ok(())
    }

    pub fn reset(&mut self, endpoint: u64) -> Done {
        let number = self.endpoint(endpoint)?;
        let unit = &mut self.units[number];
        if !unit.is_open {
            return Err(Refusal::Resetting);
        }
        unit.is_open = false;
        for descriptor in unit.queue.iter_mut() {
            if let Descriptor::Wait { batches, .. } = descriptor {
                self.frames.join(number, *batches, &mut unit.reset_ends);
            }
        }
        unit.queue.clear();
        unit.requests.clear();
        unit.open_groups = 0;
        self.jobs.retain(|job| job.endpoint as usize != number);
        self.link.send(number, Body::Reset);
        self.report.line("resetting");
        Ok(())
    }

    /// The reset-done arrives.
    pub fn reopen(&mut self, number: usize) {
        let unit = &mut self.units[number];
        unit.is_open = true;
        unit.itags.free_all();
        let ended = std::mem::replace(&mut unit.reset_ends, Waiting::NOBODY);
        self.frames.settle(number, ended);
        for binding in self.bearers.iter().filter_map(|bearers| bearers[number]) {
            let stage = &mut self.bindings[binding as usize].stage;
            *stage = match *stage {
                Stage::Live | Stage::Lost => Stage::Lost,
                _ => Stage::Quiet,
            };
        }
    }
}
