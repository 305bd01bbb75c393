//! Safe calls into the proved CIGAR arithmetic, with the names of the Rust original (fgumi-raw-bam).
//! Every call answers or refuses by number for every input; what the original answers by `Option` stays one, and what
//! it answers by panicking is a [`Refusal`]. A `Vec` of the original is a slice that the caller lends: its first places
//! are filled, those after them keep their content, and a refusal leaves all of it as it was.
#![no_std]
#![deny(missing_docs)]

mod raw;

use core::fmt;

/// Why a call answers no value.
#[derive(Clone, Copy, Debug, PartialEq, Eq, Hash)]
pub enum Refusal {
    /// A record has under 32 bytes.
    ShortRecord = 1,
    /// The op area ends past the record, or, where a record is clipped whole, its qualities do.
    AreaOverrun = 2,
    /// A list has over 65,535 ops; a long list over 1,048,576.
    TooManyOps = 3,
    /// A signed 32-bit sum overflows.
    Overflow = 4,
    /// The text is no valid mapped CIGAR.
    NotACigar = 5,
    /// The answer is longer than the lent output.
    NoRoom = 6,
    /// Printing met a code 9 to 15.
    BadCode = 7,
    /// Clipping: the lengths sum to 2^28 or more.
    TooLong = 8,
    /// Lookup: the alignment's start is outside 1 to 2^31.
    BadStart = 9,
    /// `CigarOp::new`: length 0 or above 268,435,455.
    BadLength = 10,
    /// Behind a placeholder, bases, qualities or tags up to the first CG overrun the record, or a tag among these has no known type.
    BadTags = 12,
    /// The tag CG is no array of unsigned 32-bit numbers.
    OtherCg = 13,
    /// Blocks: a start below 0, no block, or an N before the first or after the last block.
    NoBlocks = 14,
    /// Clipping a record: its query length is not its l_seq, which is not 0.
    QueryDiffers = 15,
    /// Clipping a record: over 65,535 ops would be left.
    CountOver = 16,
    /// CSI bins: min_shift outside 10 to 20, or depth outside 1 to 8.
    BadLevels = 17,
    /// CSI bins: the region is empty, begins below 0 or ends past the levels.
    BadRegion = 18,
    /// Clipping: the amount is beyond what can be clipped.
    AmountBeyond = 19,
    /// The text is no MD: not numbers alternating with letters, or `^` and letters.
    BadMd = 20,
    /// The list holds = or X already.
    MatchesTold = 21,
    /// MD and the list disagree.
    MdDisagrees = 22,
    /// The receiving check: the received record has under 32 bytes.
    ReceivedShort = 23,
    /// The receiving check: the received record ends before its last quality.
    ReceivedCut = 24,
}

const REFUSALS: &[(Refusal, &str)] = &[
    (Refusal::ShortRecord, "a record has under 32 bytes"),
    (Refusal::AreaOverrun, "the op area, or in clipping a record its last quality, ends past the record"),
    (Refusal::TooManyOps, "a list has over 65,535 ops (a long one over 1,048,576)"),
    (Refusal::Overflow, "a signed 32-bit sum overflows"),
    (Refusal::NotACigar, "the text is no valid mapped CIGAR"),
    (Refusal::NoRoom, "the answer is longer than the lent output"),
    (Refusal::BadCode, "printing met an op code 9 to 15"),
    (Refusal::TooLong, "clipping: the lengths sum to 2^28 or more"),
    (Refusal::BadStart, "lookup: alignment start outside 1 to 2^31"),
    (Refusal::BadLength, "op length 0 or above 268,435,455"),
    (Refusal::BadTags, "behind a placeholder, bases, qualities or tags overrun the record, or a tag has no known type"),
    (Refusal::OtherCg, "the tag CG is no array of unsigned 32-bit numbers"),
    (Refusal::NoBlocks, "no blocks: a start below 0, no block, or an N before the first or after the last"),
    (Refusal::QueryDiffers, "clipping a record: its query length is not its l_seq"),
    (Refusal::CountOver, "clipping a record: over 65,535 ops would be left"),
    (Refusal::BadLevels, "CSI bins: min_shift outside 10 to 20, or depth outside 1 to 8"),
    (Refusal::BadRegion, "CSI bins: not 0 <= beg < end <= 2^(min_shift + 3 * depth)"),
    (Refusal::AmountBeyond, "clipping: the amount is beyond what can be clipped"),
    (Refusal::BadMd, "malformed MD"),
    (Refusal::MatchesTold, "a list that already holds = or X"),
    (Refusal::MdDisagrees, "MD and the list disagree"),
    (Refusal::ReceivedShort, "the received record has under 32 bytes"),
    (Refusal::ReceivedCut, "the received record ends before its last quality"),
];

// The refusal of a number, and its words.
#[cold]
fn numbered(number: u32) -> (Refusal, &'static str) {
    *REFUSALS.iter().find(|(why, _)| why.number() == number).expect("a number of the library")
}

impl Refusal {
    /// The refusal's number.
    #[inline]
    pub fn number(self) -> u32 {
        self as u32
    }
}

impl fmt::Display for Refusal {
    fn fmt(&self, f: &mut fmt::Formatter<'_>) -> fmt::Result {
        write!(f, "refusal {}: {}", self.number(), numbered(self.number()).1)
    }
}

impl core::error::Error for Refusal {}

/// The nine kinds of ops, by code.
#[derive(Clone, Copy, Debug, PartialEq, Eq, Hash)]
pub enum CigarKind {
    /// M, a match or a mismatch.
    Match = 0,
    /// I, bases that the reference lacks.
    Insertion = 1,
    /// D, bases that the read lacks.
    Deletion = 2,
    /// N, a stretch of the reference that is skipped.
    Skip = 3,
    /// S, bases that are not aligned and are stored.
    SoftClip = 4,
    /// H, bases that are not aligned and are not stored.
    HardClip = 5,
    /// P, padding.
    Pad = 6,
    /// =, a match.
    SequenceMatch = 7,
    /// X, a mismatch.
    SequenceMismatch = 8,
}

const KINDS: [CigarKind; 9] = [
    CigarKind::Match,
    CigarKind::Insertion,
    CigarKind::Deletion,
    CigarKind::Skip,
    CigarKind::SoftClip,
    CigarKind::HardClip,
    CigarKind::Pad,
    CigarKind::SequenceMatch,
    CigarKind::SequenceMismatch,
];

// An answer, unless it is refused by number.
#[inline]
fn unless<A>(refusal: u32, answer: A) -> Result<A, Refusal> {
    match refusal {
        0 => Ok(answer),
        number => Err(numbered(number).0),
    }
}

#[inline]
fn int(a: raw::Int) -> Result<i32, Refusal> {
    unless(a.refusal, a.value)
}

#[inline]
fn count(a: raw::Count) -> Result<usize, Refusal> {
    unless(a.refusal, a.value as usize)
}

#[inline]
fn flag(a: raw::Flag) -> Result<bool, Refusal> {
    unless(a.refusal, a.value)
}

#[inline]
fn found(a: raw::Found) -> Result<Option<usize>, Refusal> {
    unless(a.refusal, a.found.then_some(a.value as usize))
}

#[inline]
fn lookup(a: raw::Lookup) -> Result<(Option<usize>, usize), Refusal> {
    unless(a.refusal.into(), (a.found.then_some(a.value as usize), a.examined as usize))
}

#[inline]
fn two(a: raw::Two) -> Result<(usize, usize), Refusal> {
    unless(a.refusal, (a.first as usize, a.second as usize))
}

// A call on one record.
macro_rules! of_record {
    ($($(#[$doc:meta])* $name:ident, $call:ident, $shape:ident, $kind:ty;)*) => {
        $($(#[$doc])*
        #[inline]
        pub fn $name(bam: &[u8]) -> Result<$kind, Refusal> {
            $shape(unsafe { raw::$call(bam.as_ptr(), bam.len()) }).map(|x| x as $kind)
        })*
    };
}

of_record! {
    /// The reference's number, -1 for none.
    ref_id, cigar_ref_id, int, i32;
    /// The position, counted from 0.
    pos, cigar_pos, int, i32;
    /// The length of the name, its NUL included.
    l_read_name, cigar_l_read_name, count, u8;
    /// The bin that the record holds.
    bin, cigar_bin, count, u16;
    /// The number of ops.
    n_cigar_op, cigar_n_cigar_op, count, u16;
    /// The flags.
    flags, cigar_flags, count, u16;
    /// The length of the sequence.
    l_seq, cigar_l_seq, count, u32;
    /// The mate's reference, -1 for none.
    mate_ref_id, cigar_mate_ref_id, int, i32;
    /// The mate's position, counted from 0.
    mate_pos, cigar_mate_pos, int, i32;
    /// The template's length.
    template_length, cigar_template_length, int, i32;
    /// The reference length.
    reference_length_from_raw_bam, cigar_reference_length_from_raw_bam, int, i32;
    /// The same.
    reference_length_from_raw_bam_checked, cigar_reference_length_from_raw_bam_checked, int, i32;
    /// The query length.
    query_length, cigar_query_length, count, usize;
    /// The bin, computed.
    bin_from_raw_bam, cigar_bin_from_raw_bam, count, u16;
    /// Whether the record is paired, and it and its mate are mapped on the same reference, on opposite strands.
    is_mapped_opposite_strand_pair_raw, cigar_is_mapped_opposite_strand_pair_raw, flag, bool;
    /// Whether such a pair faces inward: of a reverse record its mate starts at or before its end, of a forward one the template length is at least 1.
    is_fr_pair_raw, cigar_is_fr_pair_raw, flag, bool;
}

/// The part of the record that holds its ops; empty where the area overruns.
#[inline]
pub fn cigar_raw_bytes(bam: &[u8]) -> Result<&[u8], Refusal> {
    let (at, len) = two(unsafe { raw::cigar_cigar_raw_bytes(bam.as_ptr(), bam.len()) })?;
    Ok(&bam[at..at + len])
}

/// The record's ops into the first places of `out`; how many.
#[inline]
pub fn get_cigar_ops(bam: &[u8], out: &mut [u32]) -> Result<usize, Refusal> {
    count(unsafe { raw::cigar_get_cigar_ops(bam.as_ptr(), bam.len(), out.as_mut_ptr(), out.len()) })
}

/// Whether an op of this code, taken modulo 16, takes reference bases.
#[inline]
pub fn consumes_ref(op_type: u32) -> bool {
    unsafe { raw::cigar_consumes_ref(op_type) }
}

/// Whether an op of this code, taken modulo 16, takes query bases.
#[inline]
pub fn consumes_query(op_type: u32) -> bool {
    unsafe { raw::cigar_consumes_query(op_type) }
}

/// Whether an op of this code takes bases of the read: M, I, = and X.
#[inline]
pub fn consumes_read(op_type: u32) -> bool {
    unsafe { raw::cigar_consumes_read(op_type) }
}

impl CigarKind {
    /// The kind's letter.
    #[inline]
    pub fn as_char(self) -> char {
        unsafe { raw::cigar_as_char(self as u32) }.value as u8 as char
    }

    /// The kind of a code; none above 8.
    #[inline]
    pub fn from_op_type(op_type: u32) -> Option<CigarKind> {
        let kind = unsafe { raw::cigar_from_op_type(op_type) };
        kind.found.then(|| KINDS[kind.value as usize])
    }
}

/// An op as a record holds it.
#[derive(Clone, Copy, Debug, PartialEq, Eq, Hash)]
pub struct CigarOp(u32);

impl CigarOp {
    /// The op of a number.
    pub const fn from_raw(raw: u32) -> CigarOp {
        CigarOp(raw)
    }

    /// The op of a kind and a length.
    #[inline]
    pub fn new(kind: CigarKind, len: u32) -> Result<CigarOp, Refusal> {
        let op = unsafe { raw::cigar_op_new(kind as u32, len) };
        unless(op.refusal, CigarOp(op.value as u32))
    }

    /// The op's number.
    pub const fn raw(self) -> u32 {
        self.0
    }

    /// The op's kind; `Pad` for a code 9 to 15.
    #[inline]
    pub fn kind(self) -> CigarKind {
        KINDS[unsafe { raw::cigar_op_kind(self.0) } as usize]
    }

    /// The op's length.
    #[allow(clippy::len_without_is_empty)]
    #[inline]
    pub fn len(self) -> u32 {
        unsafe { raw::cigar_op_len(self.0) }
    }

    /// Whether the op takes query bases.
    #[inline]
    pub fn consumes_query(self) -> bool {
        unsafe { raw::cigar_op_consumes_query(self.0) }
    }

    /// Whether the op takes reference bases.
    #[inline]
    pub fn consumes_ref(self) -> bool {
        unsafe { raw::cigar_op_consumes_ref(self.0) }
    }
}

/// The reference length of a list.
#[inline]
pub fn reference_length_from_cigar(ops: &[u32]) -> Result<i32, Refusal> {
    int(unsafe { raw::cigar_reference_length_from_cigar(ops.as_ptr(), ops.len()) })
}

/// The query length of a list.
#[inline]
pub fn query_length_from_cigar(ops: &[u32]) -> Result<usize, Refusal> {
    count(unsafe { raw::cigar_query_length_from_cigar(ops.as_ptr(), ops.len()) })
}

/// The reference length of a list, 2^31 - 1 at most.
#[inline]
pub fn saturating_reference_length(ops: &[u32]) -> Result<i32, Refusal> {
    int(unsafe { raw::cigar_saturating_reference_length(ops.as_ptr(), ops.len()) })
}

/// What a record's ops sum up to. Of clips only, all are leading.
#[derive(Clone, Copy, Debug, PartialEq, Eq)]
pub struct RecordLengths {
    /// The reference length.
    pub reference: i32,
    /// The query length.
    pub query: usize,
    /// The soft clipped bases of the run of S and H that the ops begin with.
    pub leading_soft: usize,
    /// The hard clipped bases of that run.
    pub leading_hard: usize,
    /// The soft clipped bases of the run of S and H that the ops end with.
    pub trailing_soft: usize,
    /// The hard clipped bases of that run.
    pub trailing_hard: usize,
}

#[inline]
fn lengths(found: raw::Lengths) -> Result<RecordLengths, Refusal> {
    // Each number as it was written: two at once, as the compiler would read them, would wait for the writes.
    let number = |at: &u64| unsafe { core::ptr::read_volatile(at) } as usize;
    let lengths = RecordLengths {
        reference: found.reference,
        query: number(&found.query),
        leading_soft: number(&found.leading_soft),
        leading_hard: number(&found.leading_hard),
        trailing_soft: number(&found.trailing_soft),
        trailing_hard: number(&found.trailing_hard),
    };
    unless(found.refusal, lengths)
}

/// Reference and query length, and the clips at both ends.
#[inline]
pub fn cigar_lengths(bam: &[u8]) -> Result<RecordLengths, Refusal> {
    lengths(unsafe { raw::cigar_cigar_lengths(bam.as_ptr(), bam.len()) })
}

/// The record's CIGAR as text into the first places of `out`; how many bytes.
#[inline]
pub fn cigar_to_bytes_into(bam: &[u8], out: &mut [u8]) -> Result<usize, Refusal> {
    count(unsafe { raw::cigar_cigar_to_bytes_into(bam.as_ptr(), bam.len(), out.as_mut_ptr(), out.len()) })
}

/// The text's ops into the first places of `out`; how many.
#[inline]
pub fn parse_cigar_string_ops(text: &[u8], out: &mut [u32]) -> Result<usize, Refusal> {
    count(unsafe { raw::cigar_parse_cigar_string_ops(text.as_ptr(), text.len(), out.as_mut_ptr(), out.len()) })
}

/// Whether a list is a valid mapped CIGAR.
#[inline]
pub fn is_valid_mapped_cigar(ops: &[u32]) -> Result<bool, Refusal> {
    flag(unsafe { raw::cigar_is_valid_mapped_cigar(ops.as_ptr(), ops.len()) })
}

/// The mate's unclipped 5' position by its CIGAR as text, counted as the given one is.
#[inline]
pub fn mate_unclipped_5prime(mate_pos: i32, mate_reverse: bool, mc_cigar: &[u8]) -> i32 {
    unsafe { raw::cigar_mate_unclipped_5prime(mate_pos, mate_reverse as u8, mc_cigar.as_ptr(), mc_cigar.len()) }
}

/// The same of a position counted from 0, counted from 1.
#[inline]
pub fn mate_unclipped_5prime_1based(mate_pos_0based: i32, mate_reverse: bool, mc_cigar: &[u8]) -> i32 {
    unsafe { raw::cigar_mate_unclipped_5prime_1based(mate_pos_0based, mate_reverse as u8, mc_cigar.as_ptr(), mc_cigar.len()) }
}

/// A record's unclipped 5' position.
#[derive(Clone, Copy, Debug, PartialEq, Eq, Hash)]
pub enum Unclipped {
    /// The position, counted from 1.
    At(i32),
    /// The record is unmapped.
    Unmapped,
    /// The record has no ops, or they overrun it.
    NoOps,
}

#[inline]
fn unclipped(found: raw::Position) -> Result<Unclipped, Refusal> {
    unless(
        found.refusal,
        match found.which {
            0 => Unclipped::At(found.value),
            1 => Unclipped::Unmapped,
            _ => Unclipped::NoOps,
        },
    )
}

/// The unclipped 5' position. Whether the record is unmapped is asked first, then whether it has ops.
#[inline]
pub fn unclipped_5prime_from_raw_bam(bam: &[u8]) -> Result<Unclipped, Refusal> {
    unclipped(unsafe { raw::cigar_unclipped_5prime_from_raw_bam(bam.as_ptr(), bam.len()) })
}

/// The unclipped 5' position from a given position and strand, counted as the given one is, which a record without ops answers.
#[inline]
pub fn unclipped_5prime_raw(bam: &[u8], pos: i32, is_reverse: bool) -> Result<i32, Refusal> {
    int(unsafe { raw::cigar_unclipped_5prime_raw(bam.as_ptr(), bam.len(), pos, is_reverse as u8) })
}

/// The first reference position, counted from 1; none where the record has none.
#[inline]
pub fn alignment_start_from_raw(bam: &[u8]) -> Result<Option<usize>, Refusal> {
    found(unsafe { raw::cigar_alignment_start_from_raw(bam.as_ptr(), bam.len()) })
}

/// The last reference position, counted from 1; none where the record has none.
#[inline]
pub fn alignment_end_from_raw(bam: &[u8]) -> Result<Option<usize>, Refusal> {
    found(unsafe { raw::cigar_alignment_end_from_raw(bam.as_ptr(), bam.len()) })
}

/// The query position, counted from 1, at a reference position, none where there is none; and how many ops were examined for it.
#[inline]
pub fn read_pos_at_ref_pos_raw(ops: &[u32], alignment_start: usize, ref_pos: usize, return_last_base_if_deleted: bool) -> Result<(Option<usize>, usize), Refusal> {
    lookup(unsafe { raw::cigar_read_pos_at_ref_pos_raw(ops.as_ptr(), ops.len(), alignment_start as u64, ref_pos as u64, return_last_base_if_deleted as u8) })
}

/// The list clipped at the start into the first places of `out`; the ops written, and the reference bases lost.
#[inline]
pub fn clip_cigar_start_raw(ops: &[u32], clip_amount: usize, out: &mut [u32]) -> Result<(usize, usize), Refusal> {
    two(unsafe { raw::cigar_clip_cigar_start_raw(ops.as_ptr(), ops.len(), clip_amount as u64, out.as_mut_ptr(), out.len()) })
}

/// The list clipped at the end into the first places of `out`; the ops written.
#[inline]
pub fn clip_cigar_end_raw(ops: &[u32], clip_amount: usize, out: &mut [u32]) -> Result<usize, Refusal> {
    count(unsafe { raw::cigar_clip_cigar_end_raw(ops.as_ptr(), ops.len(), clip_amount as u64, out.as_mut_ptr(), out.len()) })
}

/// A record's ops clipped at the start, as `clip_cigar_start_raw` does.
#[inline]
pub fn clip_cigar_start(bam: &[u8], clip_amount: usize, out: &mut [u32]) -> Result<(usize, usize), Refusal> {
    two(unsafe { raw::cigar_clip_cigar_start(bam.as_ptr(), bam.len(), clip_amount as u64, out.as_mut_ptr(), out.len()) })
}

/// A record's ops clipped at the end, as `clip_cigar_end_raw` does.
#[inline]
pub fn clip_cigar_end(bam: &[u8], clip_amount: usize, out: &mut [u32]) -> Result<usize, Refusal> {
    count(unsafe { raw::cigar_clip_cigar_end(bam.as_ptr(), bam.len(), clip_amount as u64, out.as_mut_ptr(), out.len()) })
}

/// Where an alignment starts and ends in its reference, counted from 0, the end not included, and how many blocks it has.
#[derive(Clone, Copy, Debug, PartialEq, Eq)]
pub struct BedBlocks {
    /// chromStart
    pub start: u32,
    /// chromEnd
    pub end: u32,
    /// blockCount
    pub count: usize,
}

/// The blocks of an alignment, as BED12 has them, by its start, counted from 0, and its ops: their sizes into the first places of `sizes`, and where they start,
/// counted from `start`, into those of `starts`.
#[inline]
pub fn bed_blocks(start: i32, ops: &[u32], sizes: &mut [u32], starts: &mut [u32]) -> Result<BedBlocks, Refusal> {
    let found = unsafe { raw::cigar_bed_blocks(start, ops.as_ptr(), ops.len(), sizes.as_mut_ptr(), sizes.len(), starts.as_mut_ptr(), starts.len()) };
    unless(found.refusal, BedBlocks { start: found.chrom_start, end: found.chrom_end, count: found.block_count as usize })
}

/// The ops with each M as the runs of = and X that an MD text tells, into the first places of `out`: how many there are.
#[inline]
pub fn match_ops_from_md(ops: &[u32], md: &[u8], out: &mut [u32]) -> Result<usize, Refusal> {
    count(unsafe { raw::cigar_match_ops_from_md(ops.as_ptr(), ops.len(), md.as_ptr(), md.len(), out.as_mut_ptr(), out.len()) })
}

/// The same of two records, by the reverse one.
#[inline]
pub fn is_primary_fr_pair_raw(a: &[u8], b: &[u8]) -> Result<bool, Refusal> {
    flag(unsafe { raw::cigar_is_primary_fr_pair_raw(a.as_ptr(), a.len(), b.as_ptr(), b.len()) })
}

/// The query bases past the mate, of two lists; positions are counted from 1.
#[inline]
pub fn bases_extending_past_mate_ops(
    is_reverse: bool,
    this_pos_1based: i32,
    this_ops: &[u32],
    mate_pos_1based: i32,
    mate_ops: &[u32],
) -> Result<usize, Refusal> {
    count(unsafe {
        raw::cigar_bases_extending_past_mate_ops(
            is_reverse as u8,
            this_pos_1based,
            this_ops.as_ptr(),
            this_ops.len(),
            mate_pos_1based,
            mate_ops.as_ptr(),
            mate_ops.len(),
        )
    })
}

/// The query bases past the mate, whose ops are given.
#[inline]
pub fn num_bases_extending_past_mate_cigar_raw(bam: &[u8], mate_ops: &[u32]) -> Result<usize, Refusal> {
    count(unsafe { raw::cigar_num_bases_extending_past_mate_cigar_raw(bam.as_ptr(), bam.len(), mate_ops.as_ptr(), mate_ops.len()) })
}

/// The query bases past the mate, whose record is given.
#[inline]
pub fn num_bases_extending_past_mate_vs_mate_raw(rec: &[u8], mate: &[u8]) -> Result<usize, Refusal> {
    count(unsafe { raw::cigar_num_bases_extending_past_mate_vs_mate_raw(rec.as_ptr(), rec.len(), mate.as_ptr(), mate.len()) })
}

/// The query bases past the mate, whose ops are given as text and are left in the first places of `out`: how many bases, and how many ops.
#[inline]
pub fn num_bases_extending_past_mate_text_raw(bam: &[u8], mate_text: &[u8], out: &mut [u32]) -> Result<(usize, usize), Refusal> {
    two(unsafe {
        raw::cigar_num_bases_extending_past_mate_text_raw(bam.as_ptr(), bam.len(), mate_text.as_ptr(), mate_text.len(), out.as_mut_ptr(), out.len())
    })
}

/// The bin of the region from `beg` to `end`, counted from 0, `end` not included.
#[inline]
pub fn reg2bin(beg: i32, end: i32) -> Result<u16, Refusal> {
    count(unsafe { raw::cigar_reg2bin(beg, end) }).map(|x| x as u16)
}

/// Writes the bin to bytes 10 and 11 of the record, and answers it.
#[inline]
pub fn set_bin_from_raw_bam(bam: &mut [u8]) -> Result<u16, Refusal> {
    count(unsafe { raw::cigar_set_bin_from_raw_bam(bam.as_mut_ptr(), bam.len()) }).map(|x| x as u16)
}

/// The part of the record that holds its true op list: where its ops are a placeholder and it has the tag CG, the ops in that tag, else its own ops.
#[inline]
pub fn true_cigar_raw_bytes(bam: &[u8]) -> Result<&[u8], Refusal> {
    let (at, len) = two(unsafe { raw::cigar_true_cigar_raw_bytes(bam.as_ptr(), bam.len()) })?;
    Ok(&bam[at..at + len])
}

/// The true list's ops into the first places of `out`; how many.
#[inline]
pub fn true_cigar_ops(bam: &[u8], out: &mut [u32]) -> Result<usize, Refusal> {
    count(unsafe { raw::cigar_true_cigar_ops(bam.as_ptr(), bam.len(), out.as_mut_ptr(), out.len()) })
}

/// Reference and query length of the true list, and the clips at both ends.
#[inline]
pub fn true_cigar_lengths(bam: &[u8]) -> Result<RecordLengths, Refusal> {
    lengths(unsafe { raw::cigar_true_cigar_lengths(bam.as_ptr(), bam.len()) })
}

/// The true list as text into the first places of `out`; how many bytes.
#[inline]
pub fn true_cigar_to_bytes_into(bam: &[u8], out: &mut [u8]) -> Result<usize, Refusal> {
    count(unsafe { raw::cigar_true_cigar_to_bytes_into(bam.as_ptr(), bam.len(), out.as_mut_ptr(), out.len()) })
}

/// The record's unclipped 5' position by its true list. Whether the record is unmapped is asked before the list is looked for.
#[inline]
pub fn true_unclipped_5prime_from_raw_bam(bam: &[u8]) -> Result<Unclipped, Refusal> {
    unclipped(unsafe { raw::cigar_true_unclipped_5prime_from_raw_bam(bam.as_ptr(), bam.len()) })
}

/// The true list clipped at the start, as `clip_cigar_start_raw` does. What is written may be lent to `long_clip_cigar_start_raw` and the other calls for long lists.
#[inline]
pub fn true_clip_cigar_start(bam: &[u8], clip_amount: usize, out: &mut [u32]) -> Result<(usize, usize), Refusal> {
    two(unsafe { raw::cigar_true_clip_cigar_start(bam.as_ptr(), bam.len(), clip_amount as u64, out.as_mut_ptr(), out.len()) })
}

/// The true list clipped at the end, as `clip_cigar_end_raw` does.
#[inline]
pub fn true_clip_cigar_end(bam: &[u8], clip_amount: usize, out: &mut [u32]) -> Result<usize, Refusal> {
    count(unsafe { raw::cigar_true_clip_cigar_end(bam.as_ptr(), bam.len(), clip_amount as u64, out.as_mut_ptr(), out.len()) })
}

/// The reference length of a list of up to 1,048,576 ops.
#[inline]
pub fn long_reference_length_from_cigar(ops: &[u32]) -> Result<i32, Refusal> {
    int(unsafe { raw::cigar_long_reference_length_from_cigar(ops.as_ptr(), ops.len()) })
}

/// The query length of a list of up to 1,048,576 ops.
#[inline]
pub fn long_query_length_from_cigar(ops: &[u32]) -> Result<usize, Refusal> {
    count(unsafe { raw::cigar_long_query_length_from_cigar(ops.as_ptr(), ops.len()) })
}

/// `read_pos_at_ref_pos_raw` of a list of up to 1,048,576 ops.
#[inline]
pub fn long_read_pos_at_ref_pos_raw(ops: &[u32], alignment_start: usize, ref_pos: usize, return_last_base_if_deleted: bool) -> Result<(Option<usize>, usize), Refusal> {
    lookup(unsafe { raw::cigar_long_read_pos_at_ref_pos_raw(ops.as_ptr(), ops.len(), alignment_start as u64, ref_pos as u64, return_last_base_if_deleted as u8) })
}

/// `clip_cigar_start_raw` of a list of up to 1,048,576 ops.
#[inline]
pub fn long_clip_cigar_start_raw(ops: &[u32], clip_amount: usize, out: &mut [u32]) -> Result<(usize, usize), Refusal> {
    two(unsafe { raw::cigar_long_clip_cigar_start_raw(ops.as_ptr(), ops.len(), clip_amount as u64, out.as_mut_ptr(), out.len()) })
}

/// `clip_cigar_end_raw` of a list of up to 1,048,576 ops.
#[inline]
pub fn long_clip_cigar_end_raw(ops: &[u32], clip_amount: usize, out: &mut [u32]) -> Result<usize, Refusal> {
    count(unsafe { raw::cigar_long_clip_cigar_end_raw(ops.as_ptr(), ops.len(), clip_amount as u64, out.as_mut_ptr(), out.len()) })
}

/// The CSI bin of the region from `beg` to `end`, counted from 0, `end` not included: the smallest that holds it. With 14 and 5 it is [`reg2bin`]'s.
#[inline]
pub fn csi_reg2bin(beg: i64, end: i64, min_shift: u32, depth: u32) -> Result<u32, Refusal> {
    count(unsafe { raw::cigar_csi_reg2bin(beg, end, min_shift, depth) }).map(|x| x as u32)
}

/// All CSI bins that may overlap the region, into the first places of `out`, level by level from the coarsest, ascending; how many.
#[inline]
pub fn csi_reg2bins(beg: i64, end: i64, min_shift: u32, depth: u32, out: &mut [u32]) -> Result<usize, Refusal> {
    count(unsafe { raw::cigar_csi_reg2bins(beg, end, min_shift, depth, out.as_mut_ptr(), out.len()) })
}

/// The record clipped at the start into the first places of `out`; the bytes written, and the reference bases lost.
#[inline]
pub fn clip_record_start(bam: &[u8], clip_amount: usize, out: &mut [u8]) -> Result<(usize, usize), Refusal> {
    two(unsafe { raw::cigar_clip_record_start(bam.as_ptr(), bam.len(), clip_amount as u64, out.as_mut_ptr(), out.len()) })
}

/// The record clipped at the end into the first places of `out`; the bytes written.
#[inline]
pub fn clip_record_end(bam: &[u8], clip_amount: usize, out: &mut [u8]) -> Result<usize, Refusal> {
    count(unsafe { raw::cigar_clip_record_end(bam.as_ptr(), bam.len(), clip_amount as u64, out.as_mut_ptr(), out.len()) })
}

/// What the receiving check says of a record: that it is accepted, or its first part that differs.
#[derive(Clone, Copy, Debug, PartialEq, Eq)]
pub enum Checked {
    /// It is the record that is due.
    Accepted,
    /// The 32 bytes of its header differ.
    Header,
    /// Its name differs.
    Name,
    /// Its ops differ.
    Ops,
    /// Its bases differ, or the half byte behind an odd number of them.
    Bases,
    /// Its qualities differ.
    Qualities,
    /// Its tags differ, or end elsewhere.
    Tags,
}

const CHECKED: [Checked; 7] = [Checked::Accepted, Checked::Header, Checked::Name, Checked::Ops, Checked::Bases, Checked::Qualities, Checked::Tags];

/// Whether `received` is the record `bam`, clipped at the start, byte for byte but for its bin, which may be 0.
#[inline]
pub fn check_clipped_start(bam: &[u8], clip_amount: usize, received: &[u8]) -> Result<Checked, Refusal> {
    count(unsafe { raw::cigar_check_clipped_start(bam.as_ptr(), bam.len(), clip_amount as u64, received.as_ptr(), received.len()) }).map(|part| CHECKED[part])
}

/// Whether `received` is the record `bam`, clipped at the end, byte for byte but for its bin, which may be 0.
#[inline]
pub fn check_clipped_end(bam: &[u8], clip_amount: usize, received: &[u8]) -> Result<Checked, Refusal> {
    count(unsafe { raw::cigar_check_clipped_end(bam.as_ptr(), bam.len(), clip_amount as u64, received.as_ptr(), received.len()) }).map(|part| CHECKED[part])
}
