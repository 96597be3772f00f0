//! Deliveries: what each message does where it arrives (SCENARIOS' section 5).

use crate::bindings::Stage;
use crate::endpoints::PasidState;
use crate::link::{Body, Message};
use crate::steps::Code;
use crate::units::PageRequest;
use crate::world::{Done, World};

impl World {
    #[inline(always)]
    pub fn deliver(&mut self, number: u64) -> Done {
        let Message { endpoint, body } = self.link.deliver(number)?;
        let number = endpoint as usize;
        let endpoint = &mut self.endpoints[number];
        let answer = match body {
            Body::Start { pasid } => {
                endpoint.set_state(pasid, PasidState::On);
                "started"
            }
            Body::Stop { pasid } => {
                endpoint.set_state(pasid, PasidState::Stopping);
                "stopping"
            }
            Body::Reset => {
                endpoint.reset();
                self.link.send(number, Body::ResetDone);
                "reset"
            }
            Body::Completion { tag, entry } => endpoint.complete(tag, entry),
            Body::Invalidate { itag, pasid, order, first } => {
                endpoint.invalidate(itag, pasid, first, order);
                "taken"
            }
            Body::Response { index, code } => endpoint.respond(index, code == Code::Failure),
            Body::ResetDone => {
                self.reopen(number);
                "reset done"
            }
            _ if !self.units[number].is_open => "dropped",
            _ => return self.deliver_up(number, body),
        };
        self.report.line(answer);
        Ok(())
    }

    /// what comes to an open unit, but for the reset-done
    #[inline(always)]
    fn deliver_up(&mut self, number: usize, body: Body) -> Done {
        let unit = &mut self.units[number];
        match body {
            Body::Request { tag, pasid, page } => {
                self.translate(number, tag, pasid, page);
                self.report.line("completion");
            }
            Body::Invalidated { vector, count } => {
                let freed = unit.itags.complete(vector, count);
                self.report.line_of("freed ", freed);
            }
            Body::PageRequest { pasid, index, write, last, page } => {
                unit.requests.push(PageRequest { pasid, index, write, last, page });
                self.report.line("queued");
            }
            Body::Marker { pasid } => {
                let bearer = self.bearers[pasid as usize][number].expect("the sender is Stopping, or was reset");
                self.bindings[bearer as usize].stage = Stage::Marked;
                self.report.line("marked");
            }
            _ => unreachable!("no other message goes up"),
        }
        Ok(())
    }

    /// A translation request is answered from the space of a binding that is Live.
    #[inline(always)]
    fn translate(&mut self, number: usize, tag: u8, pasid: u8, page: u64) {
        let bearer = self.bearers[pasid as usize][number].map(|bearer| self.bindings[bearer as usize]);
        let entry = match bearer {
            Some(binding) if binding.stage == Stage::Live => self.spaces.at(binding.space as usize).pages.get(page),
            _ => None,
        };
        self.link.send(number, Body::Completion { tag, entry });
    }
}
