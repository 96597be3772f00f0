//! Frames: which are free, and those that are withheld, in batches. A batch is of one unmapping, and waits at each
//! endpoint for one wait, or the end of one reset, at most; so it stands in one list of each endpoint at most.

const NONE: u16 = u16::MAX;

#[derive(Clone, Copy, PartialEq)]
pub enum Place {
    Free,
    Mapped,
    Withheld,
}

/// The batches that wait for the same at an endpoint.
#[derive(Clone, Copy)]
pub struct Waiting(u16);

impl Waiting {
    pub const NOBODY: Waiting = Waiting(NONE);
}

#[derive(Clone, Copy)]
pub struct BatchId(u16);

struct Batch {
    /// at how many endpoints it waits
    waits: u8,
    first_frame: u16,
    /// the next batch of its list at each endpoint
    next: [u16; 8],
}

pub struct Frames {
    /// a bit for each free frame, and one for each word of these that isn't 0
    free: [u64; 64],
    words: u64,
    places: Vec<Place>,
    /// the next frame of the same batch
    next: Vec<u16>,
    free_count: usize,
    withheld_count: usize,
    batches: Vec<Batch>,
    spare: Vec<u16>,
}

impl Frames {
    pub fn new(count: usize) -> Frames {
        let mut frames = Frames {
            free: [0; 64],
            words: 0,
            places: vec![Place::Free; count],
            next: vec![NONE; count],
            free_count: 0,
            withheld_count: 0,
            batches: Vec::new(),
            spare: Vec::new(),
        };
        (0..count as u16).for_each(|frame| frames.free(frame));
        frames
    }

    pub fn free_count(&self) -> usize {
        self.free_count
    }

    pub fn withheld_count(&self) -> usize {
        self.withheld_count
    }

    pub fn count(&self) -> usize {
        self.places.len()
    }

    pub fn place(&self, frame: u64) -> Option<Place> {
        self.places.get(frame as usize).copied()
    }

    /// Takes the lowest free frame, where there is one.
    #[inline(always)]
    pub fn take(&mut self) -> u16 {
        let word = self.words.trailing_zeros() as usize % 64;
        let bit = self.free[word].trailing_zeros();
        self.free[word] &= self.free[word] - 1;
        if self.free[word] == 0 {
            self.words &= !(1 << word);
        }
        let frame = word as u16 * 64 + bit as u16;
        self.places[frame as usize] = Place::Mapped;
        self.free_count -= 1;
        frame
    }

    #[inline(always)]
    pub fn free(&mut self, frame: u16) {
        let word = frame as usize / 64 % 64;
        self.free[word] |= 1 << (frame % 64);
        self.words |= 1 << word;
        self.places[frame as usize] = Place::Free;
        self.free_count += 1;
    }

    /// a new batch, of no frame, that waits for nothing
    pub fn new_batch(&mut self) -> BatchId {
        let batch = Batch { waits: 0, first_frame: NONE, next: [NONE; 8] };
        match self.spare.pop() {
            Some(number) => {
                self.batches[number as usize] = batch;
                BatchId(number)
            }
            None => {
                self.batches.push(batch);
                BatchId(self.batches.len() as u16 - 1)
            }
        }
    }

    /// A frame that was mapped is of the batch.
    #[inline(always)]
    pub fn withhold(&mut self, frame: u16, batch: BatchId) {
        let batch = &mut self.batches[batch.0 as usize];
        self.next[frame as usize] = batch.first_frame;
        batch.first_frame = frame;
        self.places[frame as usize] = Place::Withheld;
        self.withheld_count += 1;
    }

    /// The batch waits at the endpoint for what this list waits for.
    #[inline(always)]
    pub fn wait(&mut self, batch: BatchId, endpoint: usize, list: &mut Waiting) {
        let waiting = &mut self.batches[batch.0 as usize];
        waiting.next[endpoint] = list.0;
        waiting.waits += 1;
        *list = Waiting(batch.0);
    }

    /// All of one list of the endpoint wait for what another waits for.
    pub fn join(&mut self, endpoint: usize, from: Waiting, list: &mut Waiting) {
        let mut number = from.0;
        while number != NONE {
            let next = &mut self.batches[number as usize].next[endpoint];
            let behind = std::mem::replace(next, list.0);
            *list = Waiting(number);
            number = behind;
        }
    }

    /// What the list of the endpoint waits for is over: the frames of a batch that waits for nothing else are free.
    #[inline(always)]
    pub fn settle(&mut self, endpoint: usize, list: Waiting) {
        let mut number = list.0;
        while number != NONE {
            let batch = &mut self.batches[number as usize];
            let next = batch.next[endpoint];
            batch.waits -= 1;
            if batch.waits == 0 {
                let first = batch.first_frame;
                self.spare.push(number);
                self.free_all(first);
            }
            number = next;
        }
    }

    /// Frees the withheld frames from this one on.
    fn free_all(&mut self, first: u16) {
        let mut frame = first;
        while frame != NONE {
            self.withheld_count -= 1;
            self.free(frame);
            frame = self.next[frame as usize];
        }
    }
}
