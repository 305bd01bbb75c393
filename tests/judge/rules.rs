//! Document 01's refusals and document 02's, computed from the input alone: nothing here asks the original or the port.

pub const MOST_OPS: usize = 65_535;
pub const MOST_LONG_OPS: usize = 1_048_576;
const SHORTEST_RECORD: usize = 32;
const TOO_LONG: u64 = 1 << 28;
const I32: std::ops::RangeInclusive<i64> = i32::MIN as i64..=i32::MAX as i64;

pub fn code(op: u32) -> u32 {
    op % 16
}

pub fn length(op: u32) -> i64 {
    i64::from(op / 16)
}

/// M, D, N, = and X.
pub fn is_reference(op: u32) -> bool {
    [0, 2, 3, 7, 8].contains(&code(op))
}

/// S and H.
pub fn is_clip(op: u32) -> bool {
    [4, 5].contains(&code(op))
}

pub fn reference_total(ops: &[u32]) -> i64 {
    ops.iter().filter(|&&op| is_reference(op)).map(|&op| length(op)).sum()
}

/// Of M, I, S, = and X.
pub fn query_total(ops: &[u32]) -> i64 {
    ops.iter().filter(|&&op| [0, 1, 4, 7, 8].contains(&code(op))).map(|&op| length(op)).sum()
}

/// 1: a record has under 32 bytes.
pub fn too_short(record: &[u8]) -> Option<u8> {
    (record.len() < SHORTEST_RECORD).then_some(1)
}

/// 3: a list has more ops than a call takes.
pub fn more_than(limit: usize, list: &[u32]) -> Option<u8> {
    (list.len() > limit).then_some(3)
}

/// 3: a list has over 65,535 ops.
pub fn too_many(list: &[u32]) -> Option<u8> {
    more_than(MOST_OPS, list)
}

/// 8: clipping, total length 2^28 or more, whatever the codes.
pub fn too_long(list: &[u32]) -> Option<u8> {
    (list.iter().map(|&op| u64::from(op / 16)).sum::<u64>() >= TOO_LONG).then_some(8)
}

/// What can be clipped at an end (document 02, item 12): the bases of the S and H that stand there before any other op, and all M, I, = and X.
pub fn clippable(list: &[u32], start: bool) -> u64 {
    let bases = |op: u32| u64::from(op / 16);
    let inner = |&op: &u32| !is_clip(op);
    let run = if start { &list[..list.iter().position(inner).unwrap_or(list.len())] } else { &list[list.iter().rposition(inner).map_or(0, |at| at + 1)..] };
    let reads = list.iter().filter(|&&op| [0, 1, 7, 8].contains(&code(op)));
    run.iter().chain(reads).map(|&op| bases(op)).sum()
}

/// 19: clipping by more than that, and not of an empty list.
pub fn beyond(list: &[u32], amount: u64, start: bool) -> Option<u8> {
    (!list.is_empty() && amount > clippable(list, start)).then_some(19)
}

/// 9: lookup, alignment start outside 1 to 2^31.
pub fn bad_start(start: u64) -> Option<u8> {
    (start < 1 || start > 1 << 31).then_some(9)
}

/// How many ops lookup examines (document 02, item 9): up to the first op on the reference that ends behind the position, or all; none before the start.
pub fn examined(list: &[u32], start: u64, position: u64) -> i64 {
    if position < start {
        return 0;
    }
    let mut end = start;
    for (place, &op) in (1..).zip(list) {
        if [0, 2, 3, 7, 8].contains(&code(op)) {
            end += u64::from(op / 16);
        }
        if position < end {
            return place;
        }
    }
    i64::try_from(list.len()).expect("a list is short")
}

/// 10: `CigarOp::new`, length 0 or above 2^28 - 1.
pub fn bad_length(length: u32) -> Option<u8> {
    (length == 0 || u64::from(length) >= TOO_LONG).then_some(10)
}

/// 7: printing meets a code 9 to 15.
pub fn bad_code(list: &[u32]) -> Option<u8> {
    list.iter().any(|&op| code(op) > 8).then_some(7)
}

/// 4: a signed 32-bit sum, step by step from `from`, leaves its range.
pub fn overflows(from: i64, steps: &[i64]) -> Option<u8> {
    let mut sum = from;
    for step in steps {
        sum += step;
        if !I32.contains(&sum) {
            return Some(4);
        }
    }
    None
}

/// The ops that some bytes hold, four to an op.
pub fn as_ops(bytes: &[u8]) -> Vec<u32> {
    bytes.chunks_exact(4).map(|four| u32::from_le_bytes([four[0], four[1], four[2], four[3]])).collect()
}

/// The fields of a record of 32 bytes or more.
pub struct Record<'a>(pub &'a [u8]);

impl Record<'_> {
    fn unsigned(&self, at: usize, bytes: usize) -> i64 {
        self.0[at..at + bytes].iter().rev().fold(0, |n, &b| n * 256 + i64::from(b))
    }

    fn signed(&self, at: usize) -> i64 {
        let n = self.unsigned(at, 4);
        if n >= 1 << 31 { n - (1 << 32) } else { n }
    }

    pub fn pos(&self) -> i64 {
        self.signed(4)
    }

    pub fn mate_pos(&self) -> i64 {
        self.signed(24)
    }

    fn has(&self, flag: i64) -> bool {
        self.unsigned(14, 2) & flag != 0
    }

    pub fn is_unmapped(&self) -> bool {
        self.has(4)
    }

    pub fn is_reverse(&self) -> bool {
        self.has(16)
    }

    pub fn l_seq(&self) -> i64 {
        self.unsigned(16, 4)
    }

    /// Where the op area begins and ends, be it past the record.
    pub fn op_area(&self) -> (usize, usize) {
        let start = 32 + self.unsigned(8, 1) as usize;
        (start, start + 4 * self.unsigned(12, 2) as usize)
    }

    /// The record's ops; none where their area ends past the record.
    pub fn ops(&self) -> Option<Vec<u32>> {
        let (start, end) = self.op_area();
        Some(as_ops(self.0.get(start..end)?))
    }

    /// The reference length as the original goes on with it: 0 where the checked one refuses.
    fn reference_length(&self) -> i64 {
        let total = self.ops().map_or(0, |ops| reference_total(&ops));
        if I32.contains(&total) { total } else { 0 }
    }

    /// Paired, both mapped, same reference, strands differ.
    fn is_opposite_strand_pair(&self) -> bool {
        self.has(1) && !self.has(4) && !self.has(8) && self.signed(0) == self.signed(20) && self.has(16) != self.has(32)
    }

    /// A reverse record of such a pair is FR if the mate's start is at or before its own end.
    fn reverse_is_fr(&self) -> bool {
        self.is_opposite_strand_pair() && self.mate_pos() < self.pos() + self.reference_length()
    }
}

/// FR with mate ops: for a forward record, if its own start is at or before the mate's end.
fn is_fr_with_ops(record: &Record, mate_ops: &[u32]) -> bool {
    if record.is_reverse() {
        return record.reverse_is_fr();
    }
    let mate_length = reference_total(mate_ops).min(*I32.end());
    record.is_opposite_strand_pair() && record.pos() < record.mate_pos() + mate_length
}

/// The reverse one of two records: both mapped, both mates mapped, one reference, one of each strand.
fn reverse_of<'a>(a: &'a [u8], b: &'a [u8]) -> Option<&'a [u8]> {
    let (first, second) = (Record(a), Record(b));
    let mapped = |r: &Record| !r.has(4) && !r.has(8);
    let opposite = mapped(&first) && mapped(&second) && first.signed(0) == second.signed(0) && first.is_reverse() != second.is_reverse();
    opposite.then_some(if first.is_reverse() { a } else { b })
}

/// 4 of a record against its mate's ops: the mate's position + 1, then the own position + 1, for a valid list and an FR pair.
pub fn overhang_overflows(record: &[u8], mate_ops: &[u32]) -> Option<u8> {
    let record = Record(record);
    if !is_valid(mate_ops) || !is_fr_with_ops(&record, mate_ops) {
        return None;
    }
    overflows(record.mate_pos(), &[1]).or(overflows(record.pos(), &[1]))
}

/// 4 of a record against its mate's record.
pub fn pair_overflows(record: &[u8], mate: &[u8]) -> Option<u8> {
    reverse_of(record, mate).filter(|reverse| Record(reverse).reverse_is_fr())?;
    overflows(Record(mate).pos(), &[1]).or(overflows(Record(record).pos(), &[1]))
}

/// 4 at the start: position less the leading S and H.
fn start_overflows(position: i64, ops: &[u32]) -> Option<u8> {
    let clips: Vec<i64> = ops.iter().take_while(|&&op| is_clip(op)).map(|&op| length(op)).collect();
    overflows(0, &clips).or(overflows(position, &[-clips.iter().sum::<i64>()]))
}

/// 4 at the end: the reference length, each run of clips after a reference op, and then position + length + last run - 1.
fn end_overflows(position: i64, ops: &[u32]) -> Option<u8> {
    let mut clips = 0;
    let mut seen = false;
    let mut stops = None;
    for &op in ops {
        if is_reference(op) {
            (clips, seen) = (0, true);
        } else if is_clip(op) && seen {
            clips += length(op);
            stops = stops.or(overflows(clips, &[0]));
        }
    }
    let reference = reference_total(ops);
    stops.or(overflows(reference, &[0])).or(overflows(position, &[reference, clips, -1]))
}

/// 4 of the unclipped end of a list.
fn list_overflows(ops: &[u32], position: i64, reverse: bool) -> Option<u8> {
    if reverse { end_overflows(position, ops) } else { start_overflows(position, ops) }
}

/// 4 of an unclipped end, with ops in bounds only.
pub fn unclipped_overflows(record: &[u8], position: i64, reverse: bool) -> Option<u8> {
    Record(record).ops().filter(|ops| !ops.is_empty()).and_then(|ops| list_overflows(&ops, position, reverse))
}

/// The unclipped 5' position of a list, which has ops, counted from 1, at a position that is counted from 0; or 4: "from `pos` + 1, forward less the leading S and H, reverse plus
/// reference length plus clips after the last reference op, less 1".
pub fn unclipped_position(ops: &[u32], pos: i64, reverse: bool) -> Result<i64, u8> {
    if let Some(n) = overflows(pos, &[1]).or(list_overflows(ops, pos + 1, reverse)) {
        return Err(n);
    }
    let clips = |ops: &[u32]| ops.iter().filter(|&&op| is_clip(op)).map(|&op| length(op)).sum::<i64>();
    if !reverse {
        return Ok(pos + 1 - clips(&ops[..ops.iter().position(|&op| !is_clip(op)).unwrap_or(ops.len())]));
    }
    let behind = ops.iter().rposition(|&op| is_reference(op)).map_or(ops.len(), |at| at + 1);
    Ok(pos + reference_total(ops) + clips(&ops[behind..]))
}

/// The word for a record that has no unclipped position (document 02, item 3), and the number that the original answers for it: unmapped is asked first, then no ops, none or an
/// area that overruns.
pub fn no_position(record: &[u8]) -> Option<(&'static str, i32)> {
    let fields = Record(record);
    if fields.is_unmapped() {
        return Some(("unmapped", 0));
    }
    fields.ops().is_none_or(|ops| ops.is_empty()).then_some(("no_ops", i32::MAX))
}

/// 4 of a record's own unclipped end: for a mapped record with ops, whose position + 1 comes first.
pub fn own_unclipped_overflows(record: &[u8]) -> Option<u8> {
    let fields = Record(record);
    if no_position(record).is_some() {
        return None;
    }
    overflows(fields.pos(), &[1]).or(unclipped_overflows(record, fields.pos() + 1, fields.is_reverse()))
}

/// 4 of the alignment's start: position + 1.
pub fn alignment_start_overflows(record: &[u8]) -> Option<u8> {
    overflows(Record(record).pos(), &[1]).filter(|_| Record(record).pos() >= 0)
}

/// 4 of the alignment's end, whose length is given or 0: position + length, for a position of at least 0.
pub fn alignment_end_overflows(record: &[u8]) -> Option<u8> {
    let fields = Record(record);
    overflows(fields.pos(), &[fields.reference_length()]).filter(|_| fields.pos() >= 0)
}

/// 4 of the bin, whose length is given or 0: position + a length of at least 1, for a position of at least 0.
pub fn bin_overflows(record: &[u8]) -> Option<u8> {
    let fields = Record(record);
    overflows(fields.pos(), &[fields.reference_length().max(1)]).filter(|_| fields.pos() >= 0)
}

/// The bases of the S and of the H among some ops.
fn soft_and_hard(ops: &[u32]) -> [i64; 2] {
    [4, 5].map(|kind| ops.iter().filter(|&&op| code(op) == kind).map(|&op| i64::from(op / 16)).sum())
}

/// The clips at a list's ends (document 02, item 6): leading soft and hard, trailing soft and hard. A run of S and H reaches as far as the first or last op that is
/// neither; where there is none, all is leading.
pub fn end_clips(list: &[u32]) -> Vec<i64> {
    let inner = |&op: &u32| ![4, 5].contains(&code(op));
    let first = list.iter().position(inner).unwrap_or(list.len());
    let last = list.iter().rposition(inner).map_or(list.len(), |at| at + 1);
    [soft_and_hard(&list[..first]), soft_and_hard(&list[last..])].concat()
}

/// 4 of the reference length of a list.
pub fn length_overflows(list: &[u32]) -> Option<u8> {
    overflows(reference_total(list), &[0])
}

/// 2, then 4, of the checked reference length.
pub fn checked_length_refusal(record: &[u8]) -> Option<u8> {
    match Record(record).ops() {
        None => Some(2),
        Some(ops) => overflows(reference_total(&ops), &[0]),
    }
}

// ---- document 02, item 7: 2 and 4 of a damaged record's length, where a call asks for it; each answers what its tests before that decide without asking

/// End and bin: a position below 0 comes first.
pub fn asked_at_a_place(record: &[u8]) -> Option<u8> {
    if Record(record).pos() < 0 { None } else { checked_length_refusal(record) }
}

/// A pair test on one record: flags, references and strands that fail come first; a forward record is not asked.
pub fn asked_by_its_pair(record: &[u8]) -> Option<u8> {
    let fields = Record(record);
    if fields.is_opposite_strand_pair() && fields.is_reverse() { checked_length_refusal(record) } else { None }
}

/// On two records: the guards over both come first, then the reverse one is put to the test on one.
pub fn asked_of_two(a: &[u8], b: &[u8]) -> Option<u8> {
    asked_by_its_pair(reverse_of(a, b)?)
}

/// Against a list: one that is not valid comes first.
pub fn asked_against(record: &[u8], list: &[u32]) -> Option<u8> {
    if is_valid(list) { asked_by_its_pair(record) } else { None }
}

/// `is_valid_mapped_cigar`: S stands only as the first or last op that is not H, H only as the first or last op.
pub fn is_valid(ops: &[u32]) -> bool {
    let first = ops.iter().position(|&op| code(op) != 5);
    let last = ops.iter().rposition(|&op| code(op) != 5);
    let placed = |(i, &op): (usize, &u32)| match code(op) {
        4 => Some(i) == first || Some(i) == last,
        5 => i == 0 || i + 1 == ops.len(),
        other => other <= 8,
    };
    ops.iter().enumerate().all(placed) && ops.iter().all(|&op| length(op) > 0) && ops.iter().any(|&op| is_reference(op))
}

/// The list that the strict reader has of a text; none where it refuses by 5.
pub fn strict(text: &[u8]) -> Option<Vec<u32>> {
    let mut ops = Vec::new();
    let mut rest = text;
    while !rest.is_empty() {
        let digits = rest.iter().take_while(|b| b.is_ascii_digit()).count();
        let number = std::str::from_utf8(&rest[..digits]).ok()?.trim_start_matches('0');
        let length = if number.len() > 9 { return None } else { number.parse::<u32>().ok()? };
        let code = b"MIDNSHP=X".iter().position(|b| Some(b) == rest.get(digits))?;
        if u64::from(length) >= TOO_LONG {
            return None;
        }
        ops.push(length * 16 + code as u32);
        rest = &rest[digits + 1..];
    }
    is_valid(&ops).then_some(ops)
}
