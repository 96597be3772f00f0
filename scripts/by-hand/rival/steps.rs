//! Steps, as they are read.

pub struct Config {
    pub endpoints: u64,
    pub frames: u64,
    pub workers: u64,
}

impl Config {
    pub fn fits(&self) -> bool {
        (1..=8).contains(&self.endpoints) && (1..=4096).contains(&self.frames) && (1..=4).contains(&self.workers)
    }
}

/// What a worker decides, and the code of a response.
#[derive(Clone, Copy, PartialEq)]
pub enum Code {
    Success,
    Invalid,
    Failure,
}

#[rustfmt::skip]
pub enum Step {
    Space,
    Drop { space: u64 },
    Map { space: u64, page: u64, write: bool },
    Unmap { space: u64, page: u64, count: u64 },
    UnmapRange { space: u64, page: u64, order: u64 },
    Bind { endpoint: u64, space: u64 },
    Unbind { binding: u64 },
    Advance { binding: u64 },
    Pump { endpoint: u64 },
    Serve { endpoint: u64 },
    Reset { endpoint: u64 },
    Take { worker: u64 },
    Answer { worker: u64, verdict: Code },
    Ask { endpoint: u64, pasid: u64, page: u64 },
    Use { endpoint: u64, pasid: u64, page: u64, write: bool },
    End { endpoint: u64, slot: u64 },
    Evict { endpoint: u64, pasid: u64, page: u64 },
    /// `group` is None for `new`
    Fault { endpoint: u64, pasid: u64, page: u64, write: bool, group: Option<u64>, last: bool },
    Finish { endpoint: u64, vector: u32, count: u64 },
    Quit { endpoint: u64, pasid: u64 },
    Deliver { message: u64 },
    Look { frame: u64 },
    Bearer { pasid: u64 },
}
