
// Put behind the original's text by the build: its private functions, for the judge.
pub mod reach {
    pub fn is_fr_pair_raw(bam: &[u8]) -> bool {
        super::is_fr_pair_raw(bam)
    }
    pub fn is_valid_mapped_cigar(ops: &[u32]) -> bool {
        super::is_valid_mapped_cigar(ops)
    }
}
