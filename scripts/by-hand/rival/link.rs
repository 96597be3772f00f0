//! The messages in flight, and the permitted order of the link (MODEL's section 12).

use crate::pages::Entry;
use crate::refusals::Refusal;
use crate::steps::Code;

#[derive(Clone, Copy)]
pub struct Message {
    pub endpoint: u8,
    pub body: Body,
}

/// The kinds, with the fields that something depends on. An invalidation is of 2^order pages.
#[derive(Clone, Copy)]
pub enum Body {
    Start { pasid: u8 },
    Stop { pasid: u8 },
    Reset,
    Completion { tag: u8, entry: Option<Entry> },
    Invalidate { itag: u8, pasid: u8, order: u8, first: u64 },
    Response { index: u8, code: Code },
    Request { tag: u8, pasid: u8, page: u64 },
    Invalidated { vector: u32, count: u8 },
    PageRequest { pasid: u8, index: u8, write: bool, last: bool, page: u64 },
    Marker { pasid: u8 },
    ResetDone,
}

/// Numbers of messages of one sort, as they were sent. Those at the front that were delivered are left behind when the
/// oldest in flight is asked for.
#[derive(Default)]
struct Sent {
    numbers: Vec<u32>,
    front: usize,
}

impl Sent {
    /// whether one is in flight that is older than this message
    #[inline(always)]
    fn has_older(&mut self, number: usize, messages: &[Option<Message>]) -> bool {
        while let Some(oldest) = self.numbers.get(self.front) {
            if messages[*oldest as usize].is_some() {
                return (*oldest as usize) < number;
            }
            self.front += 1;
        }
        false
    }
}

/// What the order asks of one endpoint.
#[derive(Default)]
struct Lane {
    page_requests: Sent,
    /// messages to the endpoint but translation completions
    orders: Sent,
    in_flight: u32,
}

pub struct Link {
    /// by their numbers; None once it was delivered
    messages: Vec<Option<Message>>,
    lanes: [Lane; 8],
}

impl Link {
    pub fn new() -> Link {
        Link { messages: Vec::with_capacity(1 << 16), lanes: Default::default() }
    }

    #[inline(always)]
    pub fn send(&mut self, endpoint: usize, body: Body) {
        let number = self.messages.len() as u32;
        let lane = &mut self.lanes[endpoint % 8];
        lane.in_flight += 1;
        match body {
            Body::PageRequest { .. } => lane.page_requests.numbers.push(number),
            Body::Start { .. } | Body::Stop { .. } | Body::Reset => lane.orders.numbers.push(number),
            Body::Invalidate { .. } | Body::Response { .. } => lane.orders.numbers.push(number),
            _ => {}
        }
        self.messages.push(Some(Message { endpoint: endpoint as u8, body }));
    }

    /// Takes a message that may be delivered off the link.
    #[inline(always)]
    pub fn deliver(&mut self, number: u64) -> Result<Message, Refusal> {
        let number = number as usize;
        let Some(Some(message)) = self.messages.get(number).copied() else { return Err(Refusal::NoSuchMessage) };
        let lane = &mut self.lanes[message.endpoint as usize % 8];
        let overtakes = match message.body {
            Body::PageRequest { last: true, .. } | Body::Marker { .. } => {
                lane.page_requests.has_older(number, &self.messages)
            }
            Body::Start { .. } | Body::Stop { .. } | Body::Reset => lane.orders.has_older(number, &self.messages),
            // nothing is sent to or from an endpoint between its reset-done and the end of the reset
            Body::ResetDone => lane.in_flight > 1,
            _ => false,
        };
        if overtakes {
            return Err(Refusal::Overtakes);
        }
        lane.in_flight -= 1;
        self.messages[number] = None;
        Ok(message)
    }
}
