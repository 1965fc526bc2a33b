//! The two implementations behind one face.

#[derive(Debug, Clone, Copy, PartialEq, Eq)]
pub enum Implementation {
    Plain,
    #[cfg(feature = "proved")]
    Proved,
}

impl Implementation {
    pub const ALL: &'static [Implementation] = &[
        Implementation::Plain,
        #[cfg(feature = "proved")]
        Implementation::Proved,
    ];

    pub fn name(self) -> &'static str {
        match self {
            Implementation::Plain => "plain",
            #[cfg(feature = "proved")]
            Implementation::Proved => "proved",
        }
    }

    pub fn named(name: &str) -> Option<Implementation> {
        Implementation::ALL.iter().copied().find(|one| one.name() == name)
    }

    /// Checks and boots the vector, answers all records; the number of events answered, or `usize::MAX`.
    pub fn run(self, vector: &[u8], records: &[u8], answers: &mut [u8]) -> usize {
        match self {
            Implementation::Plain => plain::run(vector, records, answers),
            #[cfg(feature = "proved")]
            Implementation::Proved => proved::run(vector, records, answers),
        }
    }
}

#[cfg(feature = "proved")]
mod proved {
    extern "C" {
        fn xm_run(
            vector: *const u8,
            vector_len: usize,
            records: *const u8,
            records_len: usize,
            answers: *mut u8,
            answers_len: usize,
        ) -> usize;
    }

    pub fn run(vector: &[u8], records: &[u8], answers: &mut [u8]) -> usize {
        // SAFETY: the three slices are valid for their lengths, do not overlap, and are not kept after the call.
        unsafe {
            xm_run(vector.as_ptr(), vector.len(), records.as_ptr(), records.len(), answers.as_mut_ptr(), answers.len())
        }
    }
}
