
// Put behind the original's text by the build: its private functions, for the judge.
use crate::memchr;

pub mod reach {
    pub fn flags(bam: &[u8]) -> u16 {
        super::flags(bam)
    }
    pub fn l_read_name(bam: &[u8]) -> u8 {
        super::l_read_name(bam)
    }
    pub fn n_cigar_op(bam: &[u8]) -> u16 {
        super::n_cigar_op(bam)
    }
}
