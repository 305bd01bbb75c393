//! The original, as a crate of its own: its files as they are, and stand-ins for what it names and this build leaves out.

pub mod bin;
#[cfg(not(judged))]
pub mod cigar;
pub mod fields;
pub mod overlap;

#[cfg(judged)]
#[path = "cigar.rs"]
mod cigar_as_it_is;

/// For the judge, cigar.rs with a note beside its unchecked length, as bin.rs and overlap.rs import it: whether it was asked for where the checked form has none.
#[cfg(judged)]
pub mod cigar {
    pub use crate::cigar_as_it_is::*;
    use std::sync::atomic::{AtomicBool, Ordering::Relaxed};

    static DAMAGED: AtomicBool = AtomicBool::new(false);

    pub fn reference_length_from_raw_bam(bam: &[u8]) -> i32 {
        if crate::cigar_as_it_is::reference_length_from_raw_bam_checked(bam).is_none() {
            DAMAGED.store(true, Relaxed);
        }
        crate::cigar_as_it_is::reference_length_from_raw_bam(bam)
    }

    /// Whether a length was asked for that there is none of, since this was asked last.
    pub fn damaged_was_asked() -> bool {
        DAMAGED.swap(false, Relaxed)
    }
}

/// Stands in for the crate `memchr`.
pub mod memchr {
    #[must_use]
    pub fn memchr(needle: u8, haystack: &[u8]) -> Option<usize> {
        haystack.iter().position(|&b| b == needle)
    }
}

/// Stands in for the crate `fgumi_tag`.
pub enum SamTag {
    MC,
}

/// Tag lookup is left out of the port: no record has a tag.
pub mod tags {
    pub struct RawTagsView;

    impl RawTagsView {
        #[must_use]
        pub fn new(_aux: &[u8]) -> Self {
            Self
        }

        #[must_use]
        pub fn find_string(&self, _tag: crate::SamTag) -> Option<&'static [u8]> {
            None
        }
    }
}
