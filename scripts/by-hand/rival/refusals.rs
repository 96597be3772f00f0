//! Refusals: an enumeration in the order of their numbers, of which the first is 1, and their names.

macro_rules! refusals {
    ($($name:ident)*) => {
        /// (NumbersSpent and OutOfMemory can't be reached: a text is too short for the first.)
        #[allow(dead_code)]
        #[derive(Clone, Copy)]
        pub enum Refusal { $($name),* }

        const NAMES: &[&str] = &[$(stringify!($name)),*];
    };
}

refusals! {
    BadConfig NoSuchEndpoint NoSuchSpace TooManySpaces PageRange Mapped NotMapped NoFrame SpaceFull AlreadyBound
    NoPasid StillBound NoSuchBinding NotLive NotYet QueueFull Resetting NotStarted NoTag NotHeld ReadOnly NoUseSlot
    NoSuchUse NoCredit NoSuchGroup PriDisabled NotPending InUse BadCount NotStopping Busy NoSuchMessage Overtakes
    NoSuchWorker HandsFull NoJob BadVerdict NumbersSpent OutOfMemory BadOrder NotAligned NothingMapped BadPasid
}

impl Refusal {
    pub fn number(self) -> u64 {
        self as u64 + 1
    }

    pub fn name(self) -> &'static str {
        NAMES[self as usize]
    }
}
