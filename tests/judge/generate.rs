//! Seeded request lines over every call: short lists and texts exhaustively, boundaries, damaged and truncated records, rooms full and short.

mod long;
mod receive;
mod record;

use crate::csi;
use crate::protocol::{put_hex, put_list, put_number, put_signed};
use crate::{bed, md, rules};
use original::{cigar, overlap};
use std::io;

/// SplitMix64.
pub struct Rng(u64);

impl Rng {
    pub fn new(seed: u64) -> Self {
        Self(seed)
    }

    pub fn next(&mut self) -> u64 {
        self.0 = self.0.wrapping_add(0x9E37_79B9_7F4A_7C15);
        let z = (self.0 ^ (self.0 >> 30)).wrapping_mul(0xBF58_476D_1CE4_E5B9);
        let z = (z ^ (z >> 27)).wrapping_mul(0x94D0_49BB_1331_11EB);
        z ^ (z >> 31)
    }

    /// A number from 0 to `n` - 1.
    pub fn below(&mut self, n: u64) -> u64 {
        self.next() % n
    }

    pub fn one_in(&mut self, n: u64) -> bool {
        self.below(n) == 0
    }

    fn pick<T: Copy>(&mut self, of: &[T]) -> T {
        of[self.below(of.len() as u64) as usize]
    }

    fn range(&mut self, low: i64, high: i64) -> i64 {
        low + self.below((high - low + 1) as u64) as i64
    }

    fn i32_near(&mut self, n: i64) -> i32 {
        (n + self.range(-2, 2)).clamp(i32::MIN.into(), i32::MAX.into()) as i32
    }
}

enum Arg<'a> {
    Number(u64),
    Signed(i32),
    Wide(i64),
    Flag(bool),
    Bytes(&'a [u8]),
    List(&'a [u32]),
    Room(usize),
}

use Arg::{Bytes, Flag, List, Number, Room, Signed, Wide};

type Done = io::Result<()>;

struct Out<'a> {
    rng: Rng,
    size: u64,
    turn: usize,
    line: Vec<u8>,
    emit: &'a mut dyn FnMut(&[u8]) -> Done,
}

/// Every request, in one order for each seed and size.
pub fn all(seed: u64, size: u64, emit: &mut dyn FnMut(&[u8]) -> Done) -> Done {
    let mut out = Out { rng: Rng::new(seed), size: size.max(1), turn: 0, line: Vec::new(), emit };
    out.numbers()?;
    out.short_lists()?;
    out.random_lists()?;
    out.lookups()?;
    out.short_blocks()?;
    out.random_blocks()?;
    out.short_md()?;
    out.random_md()?;
    out.short_texts()?;
    out.random_texts()?;
    out.random_fields()?;
    out.random_records()?;
    out.cut_records()?;
    out.short_geometry()?;
    out.random_geometry()?;
    out.pairs()?;
    out.damaged_pairs()?;
    out.bins()?;
    out.giants()?;
    out.reserved_positions()?;
    out.csi_edges()?;
    out.csi_ranges()?;
    out.csi_random()?;
    out.long()?;
    out.whole_records()?;
    out.received_records()
}

// ---- ops, lists and texts

const MOST_LENGTH: u64 = (1 << 28) - 1;

fn op(code: u32, length: u64) -> u32 {
    (length as u32) << 4 | code
}

/// A list whose lengths add up to `total`, over the given codes.
fn list_of_total(rng: &mut Rng, total: u64, codes: &[u32]) -> Vec<u32> {
    let mut list = Vec::new();
    let mut left = total;
    while left > 0 {
        let most = left.min(MOST_LENGTH);
        let length = if rng.one_in(3) { 1 + rng.below(most) } else { most };
        list.push(op(rng.pick(codes), length));
        left -= length;
    }
    list
}

const ALL_CODES: [u32; 16] = [0, 1, 2, 3, 4, 5, 6, 7, 8, 9, 10, 11, 12, 13, 14, 15];
const REFERENCE_CODES: [u32; 5] = [0, 2, 3, 7, 8];
const INNER_CODES: [u32; 10] = [0, 0, 0, 1, 1, 2, 2, 3, 7, 8];
const CLIP_CODES: [u32; 2] = [4, 5];

/// One clip op, or none.
fn push_clip(rng: &mut Rng, list: &mut Vec<u32>, code: u32, longest: u64) {
    if rng.one_in(3) {
        list.push(op(code, 1 + rng.below(longest)));
    }
}

/// Hard clips, soft clips, inner ops, soft clips, hard clips; clip runs may be absent.
fn placed_list(rng: &mut Rng, longest: u64) -> Vec<u32> {
    let mut list = Vec::new();
    push_clip(rng, &mut list, 5, longest);
    push_clip(rng, &mut list, 4, longest);
    for _ in 0..=rng.below(5) {
        let code = if rng.one_in(12) { 6 } else { rng.pick(&INNER_CODES) };
        list.push(op(code, 1 + rng.below(longest)));
    }
    push_clip(rng, &mut list, 4, longest);
    push_clip(rng, &mut list, 5, longest);
    list
}

/// The clipping calls on lists and on records, by the end.
fn clip_raw(start: bool) -> &'static str {
    if start { "clip_cigar_start_raw" } else { "clip_cigar_end_raw" }
}

fn clip_record(start: bool) -> &'static str {
    if start { "clip_cigar_start" } else { "clip_cigar_end" }
}

/// The places that the clipped list takes; those of the list itself where clipping refuses it.
fn clipped_places(list: &[u32], amount: u64, start: bool) -> usize {
    if rules::too_long(list).is_some() { list.len() } else { cigar::clip_cigar_ops_raw(list, amount as usize, start).0.len() }
}

fn any_list(rng: &mut Rng, most: u64, codes: &[u32], longest: u64) -> Vec<u32> {
    (0..rng.below(most + 1)).map(|_| op(rng.pick(codes), rng.below(longest + 1))).collect()
}

/// A reference total at 2^31, among clips and insertions.
fn list_at_2_31(rng: &mut Rng) -> Vec<u32> {
    let total = (1u64 << 31) - 3 + rng.below(5);
    let mut list = list_of_total(rng, total, &REFERENCE_CODES);
    for _ in 0..rng.below(4) {
        let at = rng.below(list.len() as u64 + 1) as usize;
        list.insert(at, op(rng.pick(&[1, 4, 5, 6, 9]), rng.below(MOST_LENGTH + 1)));
    }
    list
}

/// Reference ops with runs of clips before, between and after them, some of 2^31 in all.
fn list_of_clip_runs(rng: &mut Rng) -> Vec<u32> {
    let mut list = Vec::new();
    for _ in 0..=rng.below(3) {
        let total = rng.pick(&[0, 3, (1 << 31) - 2, (1 << 31) - 1, 1 << 31, (1 << 31) + 1]);
        list.extend(list_of_total(rng, total, &CLIP_CODES));
        if rng.one_in(2) {
            list.push(op(rng.pick(&REFERENCE_CODES), rng.below(20)));
        }
    }
    list
}

fn random_list(rng: &mut Rng) -> Vec<u32> {
    match rng.below(12) {
        0..=2 => any_list(rng, 7, &ALL_CODES, 5),
        3..=5 => placed_list(rng, 30),
        6 => any_list(rng, 12, &[0, 1, 2, 3, 4, 5, 6, 7, 8], 1000),
        7 => any_list(rng, 12, &ALL_CODES, MOST_LENGTH),
        8 => list_at_2_31(rng),
        9 => list_of_clip_runs(rng),
        10 => {
            let total = (1 << 28) - 3 + rng.below(5);
            list_of_total(rng, total, &[0, 1, 2, 3, 4, 5, 9])
        }
        _ => any_list(rng, 200, &ALL_CODES, 50),
    }
}

fn text_of(list: &[u32]) -> Vec<u8> {
    let mut text = Vec::new();
    for &op in list {
        put_number(u64::from(op >> 4), &mut text);
        text.push(b"MIDNSHP=X???????"[rules::code(op) as usize]);
    }
    text
}

/// One byte changed, put in or left out.
fn damage_text(rng: &mut Rng, text: &mut Vec<u8>) {
    let byte = if rng.one_in(3) { rng.below(256) as u8 } else { rng.pick(b"0123456789MIDNSHP=X*m+- ") };
    let at = rng.below(text.len() as u64 + 1) as usize;
    match rng.below(3) {
        0 => text.insert(at, byte),
        1 if at < text.len() => {
            text.remove(at);
        }
        _ if at < text.len() => text[at] = byte,
        _ => text.push(byte),
    }
}

/// Numbers of all widths, missing ones among them, and letters, good and bad.
fn wild_text(rng: &mut Rng) -> Vec<u8> {
    let mut text = Vec::new();
    for _ in 0..rng.below(6) {
        let number: &[u8] = rng.pick(&[
            b"", b"0", b"00", b"7", b"010", b"268435454", b"268435455", b"268435456", b"0268435455", b"2147483646", b"2147483647", b"2147483648",
            b"1073741824", b"4294967295", b"4294967296", b"4294967301", b"18446744073709551615", b"18446744073709551616", b"99999999999999999999999",
        ]);
        text.extend_from_slice(number);
        text.push(if rng.one_in(8) { rng.below(256) as u8 } else { rng.pick(b"MMIDNSSHHP=X") });
    }
    text
}

fn random_text(rng: &mut Rng) -> Vec<u8> {
    if rng.one_in(3) {
        return wild_text(rng);
    }
    let longest = rng.pick(&[3, 30, 1000, MOST_LENGTH]);
    let mut text = text_of(&placed_list(rng, longest));
    if rng.one_in(8) {
        text.insert(0, b'0');
    }
    if rng.one_in(2) {
        damage_text(rng, &mut text);
    }
    text
}

/// An MD text that agrees with a list, with a mismatch at one base in so many; now and then with zeros before a number.
fn md_of(rng: &mut Rng, list: &[u32], rate: u64) -> Vec<u8> {
    let (mut text, mut matches) = (Vec::new(), 0);
    let number = |rng: &mut Rng, text: &mut Vec<u8>, matches: &mut u64| {
        text.extend(vec![b'0'; usize::from(rng.one_in(20))]);
        put_number(std::mem::take(matches), text);
    };
    for &op in list {
        let length = rules::length(op) as u64;
        match rules::code(op) {
            0 if length > 10_000 => matches += length,
            0 => {
                for _ in 0..length {
                    if rng.one_in(rate) {
                        number(rng, &mut text, &mut matches);
                        text.push(rng.pick(b"ACGTNZ"));
                    } else {
                        matches += 1;
                    }
                }
            }
            2 if (1..=10_000).contains(&length) => {
                number(rng, &mut text, &mut matches);
                text.push(b'^');
                text.extend((0..length).map(|_| rng.pick(b"ACGT")));
            }
            _ => {}
        }
    }
    number(rng, &mut text, &mut matches);
    text
}

/// A text of MD's bytes that hardly agrees with anything.
fn wild_md(rng: &mut Rng) -> Vec<u8> {
    let mut text = Vec::new();
    for _ in 0..rng.below(5) {
        let number: &[u8] = rng.pick(&[b"", b"0", b"1", b"2", b"10", b"268435455", b"17592186044416", b"17592186044417", b"18446744073709551616", b"99999999999999999999999"]);
        let letters: &[u8] = rng.pick(&[b"", b"A", b"^A", b"^AC", b"^", b"AC", b"a", b"A0C", b"@", b"[", b"/", b":"]);
        text.extend_from_slice(number);
        text.extend_from_slice(letters);
    }
    text
}

/// All texts of a length over the alphabet, by their number.
fn nth_text(mut number: u64, length: u32) -> Vec<u8> {
    const ALPHABET: &[u8; 9] = b"019MISH*\xff";
    (0..length)
        .map(|_| {
            let byte = ALPHABET[(number % 9) as usize];
            number /= 9;
            byte
        })
        .collect()
}

/// Stretches of all sizes, 0 among them, with N's of all lengths between them, and now and then at an end.
fn spliced_list(rng: &mut Rng) -> Vec<u32> {
    let (longest, skip) = (rng.pick(&[1, 3, 100]), rng.pick(&[1, 3, 5000, MOST_LENGTH]));
    let stretch = |rng: &mut Rng| any_list(rng, 3, &[0, 0, 0, 1, 2, 4, 5, 6, 7, 8, 9, 15], longest);
    let mut list = if rng.one_in(12) { Vec::new() } else { vec![op(rng.pick(&[0, 2, 7, 8]), 1 + rng.below(longest))] };
    for _ in 0..rng.below(6) {
        list.extend(stretch(rng));
        list.push(op(3, rng.below(skip + 1)));
        if !rng.one_in(8) {
            list.push(op(rng.pick(&[0, 2, 7, 8]), 1 + rng.below(longest)));
        }
    }
    list.extend(stretch(rng));
    list
}

/// All lists of a length over 16 codes and lengths 0 to 3, by their number.
fn nth_list(number: u64, length: u32) -> Vec<u32> {
    (0..length).map(|i| (number >> (6 * i) & 63) as u32).collect()
}

// ---- records

struct Record {
    ref_id: i32,
    pos: i32,
    name: u8,
    flags: u16,
    mate_ref_id: i32,
    mate_pos: i32,
    template_length: i32,
    ops: Vec<u32>,
    tail: usize,
}

const SECOND_HALF: i64 = 1 << 31;
const FLAGS: [u16; 16] = [0, 4, 16, 20, 99, 147, 83, 163, 97, 145, 65, 113, 101, 105, 32, 2147];

impl Record {
    fn new(rng: &mut Rng, ops: Vec<u32>) -> Self {
        let ref_id = rng.pick(&[0, 0, 0, 1, -1]);
        let flags = if rng.one_in(4) { rng.next() as u16 } else { rng.pick(&FLAGS) };
        Self {
            ref_id,
            pos: position(rng, &ops),
            name: rng.pick(&[0, 1, 2, 2, 3, 5]),
            flags,
            mate_ref_id: if rng.one_in(5) { rng.pick(&[0, 1, -1]) } else { ref_id },
            mate_pos: position(rng, &ops),
            template_length: if rng.one_in(2) { rng.range(-3, 3) as i32 } else { position(rng, &ops) },
            ops,
            tail: rng.below(7) as usize,
        }
    }

    fn bytes(&self, rng: &mut Rng) -> Vec<u8> {
        let mut bytes = Vec::with_capacity(64 + self.ops.len() * 4);
        bytes.extend_from_slice(&self.ref_id.to_le_bytes());
        bytes.extend_from_slice(&self.pos.to_le_bytes());
        bytes.extend_from_slice(&[self.name, rng.next() as u8]);
        bytes.extend_from_slice(&(rng.next() as u16).to_le_bytes());
        bytes.extend_from_slice(&(self.ops.len() as u16).to_le_bytes());
        bytes.extend_from_slice(&self.flags.to_le_bytes());
        bytes.extend_from_slice(&rng.pick(&[0, 5, 30, u32::MAX]).to_le_bytes());
        bytes.extend_from_slice(&self.mate_ref_id.to_le_bytes());
        bytes.extend_from_slice(&self.mate_pos.to_le_bytes());
        bytes.extend_from_slice(&self.template_length.to_le_bytes());
        bytes.extend((0..self.name).map(|_| rng.next() as u8));
        bytes.extend(self.ops.iter().flat_map(|op| op.to_le_bytes()));
        bytes.extend((0..self.tail).map(|_| rng.next() as u8));
        bytes
    }
}

/// The bases of the clips that the list begins with.
fn leading_clips(ops: &[u32]) -> i64 {
    ops.iter().take_while(|&&op| rules::is_clip(op)).map(|&op| rules::length(op)).sum()
}

/// The bases of the clips behind the last reference op.
fn clips_behind(ops: &[u32]) -> i64 {
    let last = ops.iter().rposition(|&op| rules::is_reference(op)).map_or(ops.len(), |at| at + 1);
    ops[last..].iter().filter(|&&op| rules::is_clip(op)).map(|&op| rules::length(op)).sum()
}

/// A position: a small one, one of document 01's boundaries, or one at which the list's own sums come to an end of 32 bits.
fn position(rng: &mut Rng, ops: &[u32]) -> i32 {
    let clips: i64 = ops.iter().filter(|&&op| rules::is_clip(op)).map(|&op| rules::length(op)).sum();
    let leading = leading_clips(ops);
    let reference = rules::reference_total(ops);
    match rng.below(9) {
        0..=3 => rng.range(0, 300) as i32,
        4 => rng.i32_near(SECOND_HALF - 1 - reference),
        5 => rng.i32_near(SECOND_HALF - 1 - reference - clips),
        6 => rng.i32_near(leading - SECOND_HALF),
        7 => rng.next() as i32,
        _ => {
            let boundary = rng.pick(&[-SECOND_HALF, -1, 0, 1 << 14, 1 << 17, 1 << 20, 1 << 23, 1 << 26, 1 << 28, 1 << 29, SECOND_HALF - 1]);
            rng.i32_near(boundary)
        }
    }
}

/// Counts and lengths that don't fit the bytes, changed bytes, bytes cut off.
fn damage_record(rng: &mut Rng, bytes: &mut Vec<u8>) {
    match rng.below(5) {
        0 => bytes[12] = bytes[12].wrapping_add(rng.pick(&[1, 2, 255])),
        1 => bytes[8] = rng.pick(&[0, 1, 4, 8, 255]),
        2 => bytes[13] = rng.pick(&[1, 128, 255]),
        3 => bytes.truncate(rng.below(bytes.len() as u64 + 1) as usize),
        _ => {
            let at = rng.below(bytes.len() as u64) as usize;
            bytes[at] = rng.next() as u8;
        }
    }
}

fn ops_of(record: &[u8]) -> Vec<u32> {
    if record.len() < 32 { Vec::new() } else { cigar::get_cigar_ops(record) }
}

/// What makes two records no pair.
#[derive(Clone, Copy)]
enum Fault {
    None,
    Flag(u16),
    MateFlag(u16),
    Reference,
    MateReference,
}

const FAULTS: [Fault; 14] = [
    Fault::None,
    Fault::None,
    Fault::None,
    Fault::Flag(1),
    Fault::Flag(4),
    Fault::Flag(8),
    Fault::Flag(16),
    Fault::Flag(32),
    Fault::MateFlag(1),
    Fault::MateFlag(4),
    Fault::MateFlag(8),
    Fault::MateFlag(32),
    Fault::Reference,
    Fault::MateReference,
];

const FIELDS: [&str; 10] = ["ref_id", "pos", "l_read_name", "bin", "n_cigar_op", "flags", "l_seq", "mate_ref_id", "mate_pos", "template_length"];
const RECORD_CALLS: [&str; 12] = [
    "cigar_raw_bytes",
    "reference_length_from_raw_bam",
    "reference_length_from_raw_bam_checked",
    "query_length",
    "cigar_lengths",
    "unclipped_5prime_from_raw_bam",
    "alignment_start_from_raw",
    "alignment_end_from_raw",
    "is_mapped_opposite_strand_pair_raw",
    "is_fr_pair_raw",
    "bin_from_raw_bam",
    "set_bin_from_raw_bam",
];
const LIST_CALLS: [&str; 4] = ["reference_length_from_cigar", "query_length_from_cigar", "saturating_reference_length", "is_valid_mapped_cigar"];

impl Out<'_> {
    fn say(&mut self, call: &str, args: &[Arg]) -> Done {
        self.line.clear();
        self.line.extend_from_slice(call.as_bytes());
        for arg in args {
            self.line.push(b' ');
            let line = &mut self.line;
            match *arg {
                Number(n) => put_number(n, line),
                Signed(n) => put_signed(n.into(), line),
                Wide(n) => put_signed(n, line),
                Flag(f) => line.push(b'0' + u8::from(f)),
                Bytes(bytes) => put_hex(bytes, line),
                List(list) => put_list(list, line),
                Room(places) => {
                    line.push(b'@');
                    put_number(places as u64, line);
                }
            }
        }
        (self.emit)(&self.line)
    }

    /// A room for n places: full, one short, roomy, in turn.
    fn room(&mut self, n: usize) -> Arg<'static> {
        self.turn += 1;
        Room(match self.turn % 5 {
            0 | 1 => n,
            2 | 3 => n.saturating_sub(1),
            _ => n + 1 + self.turn % 3,
        })
    }

    // ---- numbers

    fn numbers(&mut self) -> Done {
        for n in 0..600 {
            self.number_calls(n)?;
        }
        for _ in 0..12_000 * self.size {
            let n = match self.rng.below(3) {
                0 => self.rng.next() as u32,
                1 => (self.rng.next() as u32) & 0x1F | 1 << self.rng.below(32),
                _ => op(self.rng.below(16) as u32, self.rng.next() & MOST_LENGTH),
            };
            self.number_calls(n)?;
        }
        for kind in 0..12 {
            for length in [0, 1, 2, 15, 16, (1 << 28) - 2, (1 << 28) - 1, 1 << 28, (1 << 28) + 1, u64::from(u32::MAX)] {
                self.say("op_new", &[Number(kind), Number(length)])?;
            }
        }
        for _ in 0..20_000 * self.size {
            let (kind, bits) = (self.rng.below(10), self.rng.below(33));
            let length = self.rng.next() & ((1 << bits) - 1);
            self.say("op_new", &[Number(kind), Number(length)])?;
        }
        Ok(())
    }

    fn number_calls(&mut self, n: u32) -> Done {
        for call in ["consumes_ref", "consumes_query", "consumes_read", "from_op_type", "as_char", "op_kind", "op_len", "op_consumes_query", "op_consumes_ref"] {
            self.say(call, &[Number(n.into())])?;
        }
        Ok(())
    }

    // ---- lists

    /// All lists of up to 3 ops over 16 codes and lengths 0 to 3; of those with 3 ops one in 12 is clipped, more with a larger size.
    fn short_lists(&mut self) -> Done {
        let sparse = (24 / self.size).max(1);
        for length in 0..=3 {
            for number in 0..64u64.pow(length) {
                let list = nth_list(number, length);
                self.say("is_valid_mapped_cigar", &[List(&list)])?;
                if length < 3 || self.rng.one_in(sparse.div_ceil(2)) {
                    self.clips_of(&list)?;
                }
                if length < 3 || self.rng.one_in(sparse.min(6)) {
                    self.lengths_of(&list)?;
                }
                if length < 3 || self.rng.one_in(sparse) {
                    self.lookups_of(&list)?;
                }
            }
        }
        Ok(())
    }

    fn lengths_of(&mut self, list: &[u32]) -> Done {
        for call in &LIST_CALLS[..3] {
            self.say(call, &[List(list)])?;
        }
        Ok(())
    }

    /// Every amount to two past what can be clipped, and one past the sum, both ends, list and record, rooms full, one short and roomy; where the amount is beyond, one of these.
    fn clips_of(&mut self, list: &[u32]) -> Done {
        let sum: u64 = list.iter().map(|&op| u64::from(op >> 4)).sum();
        let record = Record::new(&mut self.rng, list.to_vec()).bytes(&mut self.rng);
        for start in [false, true] {
            for amount in (0..=rules::clippable(list, start) + 2).chain([sum + 3]) {
                let places = clipped_places(list, amount, start);
                let rooms = [places, places.saturating_sub(1), places + 2];
                let some = if rules::beyond(list, amount, start).is_some() { &rooms[(amount % 3) as usize..][..1] } else { &rooms[..] };
                for &room in some {
                    self.say(clip_raw(start), &[List(list), Number(amount), Room(room)])?;
                }
                let room = self.room(places);
                self.say(clip_record(start), &[Bytes(&record), Number(amount), room])?;
            }
        }
        Ok(())
    }

    /// Every position from before the start to past the end.
    fn lookups_of(&mut self, list: &[u32]) -> Done {
        let start = self.rng.pick(&[1, 2, 100, (1 << 31) - 1, 1 << 31]);
        let end = start + rules::reference_total(list) as u64;
        for position in start - 1..=end + 1 {
            for last in [false, true] {
                self.say("read_pos_at_ref_pos_raw", &[List(list), Number(start), Number(position), Flag(last)])?;
            }
        }
        Ok(())
    }

    fn random_lists(&mut self) -> Done {
        for _ in 0..25_000 * self.size {
            let list = random_list(&mut self.rng);
            for call in LIST_CALLS {
                self.say(call, &[List(&list)])?;
            }
            for _ in 0..3 {
                self.random_clip(&list)?;
            }
        }
        Ok(())
    }

    fn random_clip(&mut self, list: &[u32]) -> Done {
        let start = self.rng.one_in(2);
        let amount = self.amount(list, start);
        let room = self.room(clipped_places(list, amount, start));
        self.say(clip_raw(start), &[List(list), Number(amount), room])
    }

    /// An amount: inside the list, at one of its own sums, at the last that can be clipped, or at a boundary.
    fn amount(&mut self, list: &[u32], start: bool) -> u64 {
        let sum: u64 = list.iter().map(|&op| u64::from(op >> 4)).sum();
        let part: u64 = list.iter().take(self.rng.below(list.len() as u64 + 1) as usize).map(|&op| u64::from(op >> 4)).sum();
        match self.rng.below(10) {
            0..=2 => self.rng.below(sum + 3),
            3 | 4 => part.saturating_add_signed(self.rng.range(-1, 1)),
            5 => (sum - part).saturating_add_signed(self.rng.range(-1, 1)),
            6 => self.rng.below(12),
            7 | 8 => rules::clippable(list, start).saturating_add_signed(self.rng.range(-1, 1)),
            _ => self.rng.pick(&[0, (1 << 28) - 1, 1 << 28, 1 << 31, 1 << 32, 1 << 60, 1 << 63, u64::MAX - 1, u64::MAX]),
        }
    }

    fn lookups(&mut self) -> Done {
        for _ in 0..60_000 * self.size {
            let list = random_list(&mut self.rng);
            let start = match self.rng.below(4) {
                0 => self.rng.pick(&[0, 1, (1 << 31) - 1, 1 << 31, (1 << 31) + 1, 1 << 32, u64::MAX]),
                _ => 1 + self.rng.below(200),
            };
            let at = self.rng.below(list.len() as u64 + 1) as usize;
            let near = start.wrapping_add(rules::reference_total(&list[..at]) as u64);
            let position = match self.rng.below(8) {
                0 => self.rng.pick(&[0, 1, 1 << 31, 1 << 32, 1 << 63, u64::MAX]),
                1 => near.wrapping_add(self.rng.below(300)),
                _ => near.saturating_add_signed(self.rng.range(-2, 2)),
            };
            let last = self.rng.one_in(2);
            self.say("read_pos_at_ref_pos_raw", &[List(&list), Number(start), Number(position), Flag(last)])?;
        }
        Ok(())
    }

    // ---- blocks

    /// Both rooms in turn full, short and roomy.
    fn blocks_of(&mut self, start: i32, list: &[u32]) -> Done {
        let places = bed::blocks(0, list).map_or(1, |(_, blocks)| blocks.len());
        let (sizes, starts) = (self.room(places), self.room(places));
        self.say("bed_blocks", &[Signed(start), List(list), sizes, starts])
    }

    /// All lists of up to 6 ops over 0M 1M 2D 0N 1N 1I, and of up to 2 over 16 codes and lengths 0 to 3.
    fn short_blocks(&mut self) -> Done {
        let ops = [op(0, 0), op(0, 1), op(2, 2), op(3, 0), op(3, 1), op(1, 1)];
        for length in 0..=6 {
            for number in 0..6u32.pow(length) {
                let list: Vec<u32> = (0..length).map(|i| ops[(number / 6u32.pow(i) % 6) as usize]).collect();
                let start = self.rng.pick(&[0, 0, 100, -1]);
                self.blocks_of(start, &list)?;
            }
        }
        for length in 0..=2 {
            for number in 0..64u64.pow(length) {
                self.blocks_of(0, &nth_list(number, length))?;
            }
        }
        Ok(())
    }

    /// Starts on both sides of 0, and at which the end comes to 2^31 - 1 or passes it.
    fn random_blocks(&mut self) -> Done {
        for _ in 0..60_000 * self.size {
            let list = if self.rng.one_in(4) { random_list(&mut self.rng) } else { spliced_list(&mut self.rng) };
            let start = match self.rng.below(8) {
                0 => self.rng.pick(&[-1, i32::MIN, i32::MAX, 0]),
                1 | 2 => self.rng.i32_near(SECOND_HALF - 1 - rules::reference_total(&list)),
                _ => self.rng.range(0, 100_000) as i32,
            };
            self.blocks_of(start, &list)?;
        }
        Ok(())
    }

    // ---- matches told apart from MD

    fn md_with(&mut self, list: &[u32], text: &[u8]) -> Done {
        let places = md::told(list, text).map_or(list.len(), |ops| ops.len());
        let room = self.room(places);
        self.say("match_ops_from_md", &[List(list), Bytes(text), room])
    }

    /// All lists of up to 2 ops over 0M 1M 2M 3M 0D 1D 2D 1I, with all texts to length 5 over `0 1 2 A ^`, those that are no MD with the first 9 lists; and each code with lengths 0 to 2 between two M's.
    fn short_md(&mut self) -> Done {
        let ops = [op(0, 0), op(0, 1), op(0, 2), op(0, 3), op(2, 0), op(2, 1), op(2, 2), op(1, 1)];
        for length in 0..=5 {
            for number in 0..5usize.pow(length) {
                let text: Vec<u8> = (0..length).map(|i| b"012A^"[number / 5usize.pow(i) % 5]).collect();
                let malformed = md::told(&[], &text) == Err(20);
                for ends in 0..if malformed { 9 } else { 73 } {
                    let list: Vec<u32> = match ends {
                        0 => Vec::new(),
                        1..9 => vec![ops[ends - 1]],
                        _ => vec![ops[(ends - 9) / 8], ops[(ends - 9) % 8]],
                    };
                    self.md_with(&list, &text)?;
                }
            }
        }
        for code in 0..16 {
            for length in 0..3 {
                for text in [&b"3"[..], b"1A1", b"2A0", b"3^A0", b"1^C2", b"1^CG2", b"2T2", b"5", b"3A", b""] {
                    self.md_with(&[op(0, 2), op(code, length), op(0, 1)], text)?;
                }
            }
        }
        Ok(())
    }

    /// Most texts agree with their list; of the others most miss by a byte, an op, the last number, or a part cut in two.
    fn random_md(&mut self) -> Done {
        for _ in 0..150_000 * self.size {
            let longest = self.rng.pick(&[3, 3, 30, 200, MOST_LENGTH]);
            let codes: &[u32] = self.rng.pick(&[&[0, 2], &[0, 1, 2], &[0, 0, 1, 2, 3, 4, 5, 6, 9, 15]]);
            let mut list = any_list(&mut self.rng, 8, codes, longest);
            let rate = self.rng.pick(&[1, 2, 3, 10, 50]);
            let mut text = md_of(&mut self.rng, &list, rate);
            match self.rng.below(14) {
                0 | 1 => {
                    let byte = if self.rng.one_in(4) { self.rng.below(256) as u8 } else { self.rng.pick(b"0012AC^^a@[/:") };
                    let at = self.rng.below(text.len() as u64) as usize;
                    match self.rng.below(3) {
                        0 => text.insert(at, byte),
                        1 => text[at] = byte,
                        _ => {
                            text.remove(at);
                        }
                    }
                }
                2 if !list.is_empty() => {
                    let at = self.rng.below(list.len() as u64) as usize;
                    list[at] = if self.rng.one_in(2) { list[at].wrapping_add(16) } else { op(self.rng.below(16) as u32, self.rng.below(4)) };
                }
                3 => text.truncate(text.iter().rposition(|byte| !byte.is_ascii_digit()).map_or(0, |at| at + 1)),
                4 => text = wild_md(&mut self.rng),
                5 => {
                    list.extend(any_list(&mut self.rng, 2, &[7, 8, 0], 2));
                    text.truncate(text.len() - usize::from(self.rng.one_in(3)));
                }
                6 => {
                    // a part of two letters or more becomes two parts
                    let found = text.windows(3).position(|bytes| bytes[0] == b'^' && bytes[2].is_ascii_uppercase());
                    found.into_iter().for_each(|at| drop(text.splice(at + 2..at + 2, *b"0^")));
                }
                7 => {
                    // two parts with nothing between them become one
                    let found = text.windows(3).position(|bytes| bytes[0].is_ascii_uppercase() && bytes[1] == b'0' && bytes[2] == b'^');
                    found.into_iter().for_each(|at| drop(text.drain(at + 1..at + 3)));
                }
                _ => {}
            }
            self.md_with(&list, &text)?;
        }
        Ok(())
    }

    // ---- texts

    /// All texts to length 5 over `0 1 9 M I S H * 0xFF`.
    fn short_texts(&mut self) -> Done {
        let record = self.fr_record();
        for length in 0..=5 {
            for number in 0..9u64.pow(length) {
                let text = nth_text(number, length);
                self.strict_of(&text)?;
                for reverse in [false, true] {
                    self.mate_of(&text, reverse)?;
                }
                if length < 5 {
                    self.overhang_of_text(&record, &text)?;
                }
            }
        }
        Ok(())
    }

    fn strict_of(&mut self, text: &[u8]) -> Done {
        let places = rules::strict(text).map_or(2, |list| list.len());
        let room = self.room(places);
        self.say("parse_cigar_string_ops", &[Bytes(text), room])
    }

    fn mate_of(&mut self, text: &[u8], reverse: bool) -> Done {
        let max = SECOND_HALF - 1;
        let near = self.rng.pick(&[0, 100, 100, -SECOND_HALF, max, max - 10, 10 - SECOND_HALF, -1]);
        for call in ["mate_unclipped_5prime", "mate_unclipped_5prime_1based"] {
            let position = self.rng.i32_near(near);
            self.say(call, &[Signed(position), Flag(reverse), Bytes(text)])?;
        }
        Ok(())
    }

    fn random_texts(&mut self) -> Done {
        for _ in 0..50_000 * self.size {
            let text = random_text(&mut self.rng);
            self.strict_of(&text)?;
            let reverse = self.rng.one_in(2);
            self.mate_of(&text, reverse)?;
        }
        Ok(())
    }

    // ---- records

    /// Records of random bytes, of 28 bytes and more.
    fn random_fields(&mut self) -> Done {
        for _ in 0..15_000 * self.size {
            let record: Vec<u8> = (0..28 + self.rng.below(9)).map(|_| self.rng.next() as u8).collect();
            for call in FIELDS {
                self.say(call, &[Bytes(&record)])?;
            }
        }
        Ok(())
    }

    fn random_record(&mut self) -> Vec<u8> {
        let ops = random_list(&mut self.rng);
        let mut bytes = Record::new(&mut self.rng, ops).bytes(&mut self.rng);
        if self.rng.one_in(4) {
            damage_record(&mut self.rng, &mut bytes);
        }
        bytes
    }

    fn random_records(&mut self) -> Done {
        for _ in 0..30_000 * self.size {
            let record = self.random_record();
            self.record_calls(&record)?;
        }
        Ok(())
    }

    /// Every call on one record, besides the fields.
    fn record_calls(&mut self, record: &[u8]) -> Done {
        for call in RECORD_CALLS {
            self.say(call, &[Bytes(record)])?;
        }
        let ops = ops_of(record);
        let room = self.room(ops.len());
        self.say("get_cigar_ops", &[Bytes(record), room])?;
        let room = self.room(text_of(&ops).len());
        self.say("cigar_to_bytes_into", &[Bytes(record), room])?;
        for reverse in [false, true] {
            let position = position(&mut self.rng, &ops);
            self.say("unclipped_5prime_raw", &[Bytes(record), Signed(position), Flag(reverse)])?;
        }
        let start = self.rng.one_in(2);
        let amount = self.amount(&ops, start);
        let room = self.room(clipped_places(&ops, amount, start));
        self.say(clip_record(start), &[Bytes(record), Number(amount), room])
    }

    /// Records whose unclipped position comes near 0 or 2^31 - 1, which the original answers for none: mapped and unmapped, with their ops, without, and with more than there are.
    fn reserved_positions(&mut self) -> Done {
        for _ in 0..2_000 * self.size {
            let ops = placed_list(&mut self.rng, 30);
            let mut record = Record::new(&mut self.rng, ops);
            record.flags = self.rng.pick(&[0, 0, 16, 16, 4, 20]);
            let moved = if record.flags & 16 == 0 { 1 - leading_clips(&record.ops) } else { rules::reference_total(&record.ops) + clips_behind(&record.ops) };
            let near = self.rng.pick(&[0, SECOND_HALF - 1]) - moved;
            record.pos = self.rng.i32_near(near);
            let mut bytes = record.bytes(&mut self.rng);
            for count in [bytes[12], 0, 255] {
                bytes[12] = count;
                self.say("unclipped_5prime_from_raw_bam", &[Bytes(&bytes)])?;
            }
        }
        Ok(())
    }

    /// Records cut at every byte, through every call that takes one.
    fn cut_records(&mut self) -> Done {
        let mate = self.fr_record();
        for _ in 0..40 * self.size {
            let ops = placed_list(&mut self.rng, 30);
            let mut whole = Record::new(&mut self.rng, ops);
            (whole.flags, whole.mate_ref_id) = (self.rng.pick(&[99, 147, 83, 163]), whole.ref_id);
            let bytes = whole.bytes(&mut self.rng);
            for length in 0..=bytes.len() {
                let record = &bytes[..length];
                for call in FIELDS {
                    self.say(call, &[Bytes(record)])?;
                }
                self.record_calls(record)?;
                self.say("is_primary_fr_pair_raw", &[Bytes(record), Bytes(&mate)])?;
                self.say("num_bases_extending_past_mate_vs_mate_raw", &[Bytes(&mate), Bytes(record)])?;
                self.say("num_bases_extending_past_mate_cigar_raw", &[Bytes(record), List(&whole.ops)])?;
                self.overhang_of_text(record, &text_of(&whole.ops))?;
            }
        }
        Ok(())
    }

    // ---- pairs and overhang

    /// A forward record at 100, its reverse mate at 104, on one reference.
    fn fr_record(&mut self) -> Vec<u8> {
        self.fr_record_at(99, 103)
    }

    fn fr_record_at(&mut self, pos: i32, mate_pos: i32) -> Vec<u8> {
        let mut record = Record::new(&mut self.rng, vec![op(4, 2), op(0, 9), op(4, 3)]);
        (record.flags, record.ref_id, record.mate_ref_id) = (99, 0, 0);
        (record.pos, record.mate_pos, record.template_length) = (pos, mate_pos, 20);
        record.bytes(&mut self.rng)
    }

    fn overhang_of_text(&mut self, record: &[u8], text: &[u8]) -> Done {
        let places = rules::strict(text).map_or(1, |list| list.len());
        let room = self.room(places);
        self.say("num_bases_extending_past_mate_text_raw", &[Bytes(record), Bytes(text), room])
    }

    /// All pairs of lists of up to 2 ops over M, I, D and S of 1 or 2 bases, near each other, on both strands.
    fn short_geometry(&mut self) -> Done {
        let ops = [op(0, 1), op(0, 2), op(1, 1), op(1, 2), op(2, 1), op(2, 2), op(4, 1), op(4, 2)];
        let mut lists: Vec<Vec<u32>> = ops.iter().map(|&a| vec![a]).collect();
        lists.extend(ops.iter().flat_map(|&a| ops.iter().map(move |&b| vec![a, b])));
        for list in &lists {
            for mate in &lists {
                for mate_at in 96..=104 {
                    let reverse = self.rng.one_in(2);
                    self.say("bases_extending_past_mate_ops", &[Flag(reverse), Signed(100), List(list), Signed(mate_at), List(mate)])?;
                }
            }
        }
        Ok(())
    }

    /// Starts at which the two alignments overlap, only just meet, or stop short of each other; or at an end of 32 bits.
    fn starts(&mut self, list: &[u32], mate: &[u32]) -> (i32, i32) {
        let near = self.rng.pick(&[100, 100, 100, 100, SECOND_HALF - 30, SECOND_HALF - 1, -SECOND_HALF, 30 - SECOND_HALF, 0]);
        let start = self.rng.i32_near(near);
        let (own, other) = (overlap::saturating_reference_length(list), overlap::saturating_reference_length(mate));
        let gap = match self.rng.below(6) {
            0 => self.rng.range(-40, 40),
            1 => i64::from(own) + self.rng.range(-2, 12),
            2 => -i64::from(other) + self.rng.range(-12, 2),
            3 => i64::from(own) - i64::from(other) + self.rng.range(-3, 3),
            4 => self.rng.range(-3, 3),
            _ => self.rng.range(-SECOND_HALF, SECOND_HALF),
        };
        (start, (i64::from(start) + gap).clamp(i32::MIN.into(), i32::MAX.into()) as i32)
    }

    fn mate_list(&mut self) -> Vec<u32> {
        match self.rng.below(12) {
            0 => random_list(&mut self.rng),
            1 => any_list(&mut self.rng, 6, &ALL_CODES, 6),
            2 => placed_list(&mut self.rng, MOST_LENGTH),
            3 => list_of_clip_runs(&mut self.rng),
            _ => placed_list(&mut self.rng, 12),
        }
    }

    fn random_geometry(&mut self) -> Done {
        for _ in 0..90_000 * self.size {
            let (list, mate) = (self.mate_list(), self.mate_list());
            let (start, mate_start) = self.starts(&list, &mate);
            let reverse = self.rng.one_in(2);
            self.say("bases_extending_past_mate_ops", &[Flag(reverse), Signed(start), List(&list), Signed(mate_start), List(&mate)])?;
        }
        Ok(())
    }

    /// Two records that mostly are an FR pair, with one field off now and then.
    fn pair(&mut self) -> (Record, Record) {
        let (list, mate_list) = (self.mate_list(), self.mate_list());
        let (start, mate_start) = self.starts(&list, &mate_list);
        let (mut a, mut b) = (Record::new(&mut self.rng, list), Record::new(&mut self.rng, mate_list));
        let reverse = self.rng.one_in(2);
        (a.flags, b.flags) = if reverse { (83, 163) } else { (99, 147) };
        for record in [&mut a, &mut b] {
            (record.ref_id, record.mate_ref_id) = (3, 3);
            if self.rng.one_in(8) {
                record.flags ^= 1 << self.rng.below(7);
            }
            if self.rng.one_in(16) {
                record.mate_ref_id = 4;
            }
            if self.rng.one_in(16) {
                record.ref_id = 4;
            }
        }
        (a.pos, a.mate_pos, b.pos, b.mate_pos) = (start, mate_start, mate_start, start);
        if self.rng.one_in(6) {
            b.mate_pos = self.rng.i32_near(mate_start.into());
        }
        (a, b)
    }

    fn pairs(&mut self) -> Done {
        for _ in 0..60_000 * self.size {
            let (a, b) = self.pair();
            let (mut record, mut mate) = (a.bytes(&mut self.rng), b.bytes(&mut self.rng));
            for bytes in [&mut record, &mut mate] {
                if self.rng.one_in(24) {
                    damage_record(&mut self.rng, bytes);
                }
            }
            self.say("is_fr_pair_raw", &[Bytes(&record)])?;
            self.say("is_mapped_opposite_strand_pair_raw", &[Bytes(&mate)])?;
            self.say("is_primary_fr_pair_raw", &[Bytes(&record), Bytes(&mate)])?;
            self.say("num_bases_extending_past_mate_vs_mate_raw", &[Bytes(&record), Bytes(&mate)])?;
            self.say("num_bases_extending_past_mate_cigar_raw", &[Bytes(&record), List(&b.ops)])?;
            let mut text = text_of(&b.ops);
            if self.rng.one_in(5) {
                damage_text(&mut self.rng, &mut text);
            }
            self.overhang_of_text(&record, &text)?;
        }
        Ok(())
    }

    /// Damaged records as the one that is asked, as the mate and as both, on both strands, at positions on both sides of 0 and at the ends of 32 bits, with flags and references that
    /// make a pair and that don't, against valid lists and others.
    fn damaged_pairs(&mut self) -> Done {
        let places = [99, 0, -1, i32::MIN, i32::MAX];
        for _ in 0..2 * self.size {
            for way in [1, 2, 3] {
                for fault in FAULTS {
                    for reverse in [false, true] {
                        for pos in places {
                            self.damaged_pair(way, fault, reverse, pos)?;
                        }
                    }
                }
            }
        }
        Ok(())
    }

    /// A pair with one fault, of which the first (1), the second (2) or both (3) are damaged.
    fn damaged_pair(&mut self, way: u32, fault: Fault, reverse: bool, pos: i32) -> Done {
        let (mut a, mut b) = (Record::new(&mut self.rng, vec![op(0, 20)]), Record::new(&mut self.rng, vec![op(0, 10), op(4, 5)]));
        (a.flags, b.flags) = if reverse { (83, 163) } else { (99, 147) };
        let mate_pos = if self.rng.one_in(3) { self.rng.pick(&[-1, i32::MAX]) } else { 99 + self.rng.range(-25, 25) as i32 };
        (a.pos, a.mate_pos, b.pos, b.mate_pos) = (pos, mate_pos, mate_pos, pos);
        for record in [&mut a, &mut b] {
            (record.ref_id, record.mate_ref_id, record.template_length) = (3, 3, self.rng.range(-1, 2) as i32);
        }
        match fault {
            Fault::None => {}
            Fault::Flag(bit) => a.flags ^= bit,
            Fault::MateFlag(bit) => b.flags ^= bit,
            Fault::Reference => a.ref_id = 4,
            Fault::MateReference => a.mate_ref_id = 4,
        }
        let mut list = b.ops.clone();
        if self.rng.one_in(4) {
            list.push(op(0, 0));
        }
        let record = self.damaged(a, way & 1 != 0);
        let mate = self.damaged(b, way & 2 != 0);
        for call in RECORD_CALLS {
            self.say(call, &[Bytes(&record)])?;
        }
        for call in ["is_primary_fr_pair_raw", "num_bases_extending_past_mate_vs_mate_raw"] {
            self.say(call, &[Bytes(&record), Bytes(&mate)])?;
            self.say(call, &[Bytes(&mate), Bytes(&record)])?;
        }
        self.say("num_bases_extending_past_mate_cigar_raw", &[Bytes(&record), List(&list)])?;
        self.overhang_of_text(&record, &text_of(&list))
    }

    /// The record's bytes; of a damaged one with ops that overrun it, or of 2^31 reference bases or about as many.
    fn damaged(&mut self, mut record: Record, damaged: bool) -> Vec<u8> {
        if damaged && self.rng.one_in(2) {
            record.ops = list_at_2_31(&mut self.rng);
            return record.bytes(&mut self.rng);
        }
        let mut bytes = record.bytes(&mut self.rng);
        if damaged {
            let ops_end = 32 + usize::from(record.name) + 4 * record.ops.len();
            match self.rng.below(3) {
                0 => bytes.truncate(32 + self.rng.below((ops_end - 32) as u64) as usize),
                1 => bytes[12] += 1 + self.rng.below(200) as u8 + record.tail as u8 / 4,
                _ => bytes[13] = 255,
            }
        }
        bytes
    }

    // ---- bins

    fn bins(&mut self) -> Done {
        let mut edges = vec![-SECOND_HALF, SECOND_HALF - 1, -1, 0, 1];
        for shift in [14, 17, 20, 23, 26, 29, 30] {
            for times in [1i64, 2, 3, 7] {
                edges.extend([-times << shift, times << shift]);
            }
        }
        let edges: Vec<i32> = edges.iter().flat_map(|&n| [n - 1, n, n + 1]).filter_map(|n| i32::try_from(n).ok()).collect();
        for &beg in &edges {
            for &end in &edges {
                self.say("reg2bin", &[Signed(beg), Signed(end)])?;
            }
        }
        for _ in 0..40_000 * self.size {
            let (bits, beg) = (self.rng.below(32), self.rng.next() as i32 >> self.rng.below(24));
            let end = i64::from(beg) + (self.rng.next() >> (63 - bits)) as i64;
            let end = if self.rng.one_in(8) { self.rng.next() as i32 } else { end.min(SECOND_HALF - 1) as i32 };
            self.say("reg2bin", &[Signed(beg), Signed(end)])?;
        }
        Ok(())
    }

    // ---- around 65,535 ops

    fn giants(&mut self) -> Done {
        for count in [65_534, 65_535, 65_536, 65_537, 100_000] {
            for value in [op(0, 1), op(4, 1), op(0, 0), op(9, 1), op(0, MOST_LENGTH), op(1, MOST_LENGTH)] {
                let mut list = vec![value; count];
                self.giant_list(&list)?;
                list[0] = op(0, 2);
                list[count - 1] = op(4, 2);
                self.giant_list(&list)?;
            }
            self.giant_blocks(count)?;
            self.giant_md(count)?;
            self.giant_text(&vec![op(0, 1); count])?;
            if let Ok(ops) = u16::try_from(count) {
                self.giant_record(ops.into())?;
            }
        }
        Ok(())
    }

    fn giant_list(&mut self, list: &[u32]) -> Done {
        for call in LIST_CALLS {
            self.say(call, &[List(list)])?;
        }
        for start in [false, true] {
            let most = rules::clippable(list, start);
            for amount in [0, 1, 2, 70_000, most.saturating_sub(1), most, most + 1] {
                for room in [65_534, 65_535, 65_536, 65_537, 0] {
                    self.say(clip_raw(start), &[List(list), Number(amount), Room(room)])?;
                }
            }
        }
        let record = self.fr_record();
        for start in [0, 1, 100] {
            self.say("read_pos_at_ref_pos_raw", &[List(list), Number(start), Number(start + 65_530), Flag(true)])?;
            let (reverse, mate) = (start == 1, vec![op(0, 1 << start.min(8))]);
            self.say("bases_extending_past_mate_ops", &[Flag(reverse), Signed(100), List(list), Signed(90), List(&mate)])?;
            self.say("bases_extending_past_mate_ops", &[Flag(reverse), Signed(100), List(&mate), Signed(90), List(list)])?;
            self.say("num_bases_extending_past_mate_cigar_raw", &[Bytes(&record[..32 - start.min(1) as usize]), List(list)])?;
            self.say("num_bases_extending_past_mate_cigar_raw", &[Bytes(&record), List(list)])?;
        }
        let last = self.fr_record_at(99, i32::MAX);
        self.say("num_bases_extending_past_mate_cigar_raw", &[Bytes(&last), List(list)])
    }

    /// A block for every other op; with one N more at the end; and one block of all ops.
    fn giant_blocks(&mut self, count: usize) -> Done {
        let spliced: Vec<u32> = (0..count).map(|i| if i % 2 == 0 { op(0, 2) } else { op(3, 3) }).collect();
        for list in [&spliced[..count - (count + 1) % 2], &spliced[..count - count % 2], &vec![op(2, 1); count][..]] {
            for start in [0, -1, i32::MAX] {
                self.blocks_of(start, list)?;
            }
            self.say("bed_blocks", &[Signed(7), List(list), Room(32_767), Room(32_768)])?;
            self.say("bed_blocks", &[Signed(7), List(list), Room(32_768), Room(32_767)])?;
            self.say("bed_blocks", &[Signed(7), List(list), Room(32_769), Room(32_768)])?;
        }
        Ok(())
    }

    /// As many runs as there are ops, and half as many more; the longest ops; a D for every other op.
    fn giant_md(&mut self, count: usize) -> Done {
        let ones = vec![op(0, 1); count];
        let gaps: Vec<u32> = (0..count).map(|i| if i % 2 == 0 { op(0, 3) } else { op(2, 1) }).collect();
        for list in [&ones[..], &gaps, &vec![op(0, MOST_LENGTH); count]] {
            for rate in [1, 4, 1 << 40] {
                let text = md_of(&mut self.rng, list, rate);
                self.md_with(list, &text)?;
                self.md_with(list, &text[..text.len() - 1])?;
                self.say("match_ops_from_md", &[List(list), Bytes(&text), Room(2 * count)])?;
            }
        }
        self.say("match_ops_from_md", &[List(&ones), Bytes(b""), Room(0)])
    }

    fn giant_text(&mut self, list: &[u32]) -> Done {
        let text = text_of(list);
        let (record, last) = (self.fr_record(), self.fr_record_at(99, i32::MAX));
        for room in [list.len(), list.len() - 1, 65_536] {
            self.say("parse_cigar_string_ops", &[Bytes(&text), Room(room)])?;
            self.say("num_bases_extending_past_mate_text_raw", &[Bytes(&record), Bytes(&text), Room(room)])?;
            self.say("num_bases_extending_past_mate_text_raw", &[Bytes(&last), Bytes(&text), Room(room)])?;
        }
        self.say("parse_cigar_string_ops", &[Bytes(&text[..text.len() - 1]), Room(1)])?;
        self.say("num_bases_extending_past_mate_text_raw", &[Bytes(&record[..31]), Bytes(&text), Room(1)])?;
        self.mate_of(&text, true)
    }

    fn giant_record(&mut self, count: usize) -> Done {
        let mut ops = vec![op(0, 3); count];
        (ops[0], ops[count - 1]) = (op(4, 7), op(5, 1));
        let mut record = Record::new(&mut self.rng, ops);
        (record.flags, record.pos, record.mate_pos) = (147, 1000, 1500);
        let bytes = record.bytes(&mut self.rng);
        self.record_calls(&bytes)?;
        self.say("get_cigar_ops", &[Bytes(&bytes), Room(count)])
    }

    // ---- CSI bins

    /// Both calls; a list of more than 3,000 bins gets too little room.
    fn csi_calls(&mut self, beg: i64, end: i64, min_shift: u32, depth: u32) -> Done {
        let (shift, levels) = (min_shift.into(), depth.into());
        self.say("csi_reg2bin", &[Wide(beg), Wide(end), Number(shift), Number(levels)])?;
        let places = if csi::refusal(beg, end, min_shift, depth).is_some() { 2 } else { csi::count(beg, end, min_shift, depth).min(3_000) as usize };
        let room = self.room(places);
        self.say("csi_reg2bins", &[Wide(beg), Wide(end), Number(shift), Number(levels), room])
    }

    /// All regions between places at most one off an edge of a bin, of genomes of 8 and 64 bins of 1,024 bases.
    fn csi_edges(&mut self) -> Done {
        for depth in [1, 2] {
            let places: Vec<i64> = (0..=1i64 << (3 * depth)).flat_map(|i| [1024 * i - 1, 1024 * i, 1024 * i + 1]).collect();
            for &beg in &places {
                for &end in &places {
                    self.csi_calls(beg, end, 10, depth)?;
                }
            }
        }
        Ok(())
    }

    /// Shifts and depths in range and out of it, each with regions at both ends of the genome, outside it, empty, turned round and as far as 64 bits go.
    fn csi_ranges(&mut self) -> Done {
        const FAR: [i64; 8] = [i64::MIN, i64::MIN + 1, -1, 0, 1, 1 << 44, i64::MAX - 1, i64::MAX];
        for min_shift in (0..=24).chain([31, 32, 63, 64, u32::MAX]) {
            for depth in (0..=11).chain([21, 64, u32::MAX]) {
                let genome = 1 << (min_shift.min(20) + 3 * depth.min(8));
                for (beg, end) in [(0, 1), (genome - 1, genome), (genome, genome + 1), (genome - 1, genome + 1), (0, genome), (0, genome + 1), (5, 5), (6, 5), (-1, 1)] {
                    self.csi_calls(beg, end, min_shift, depth)?;
                }
                let (beg, end) = (self.rng.pick(&FAR), self.rng.pick(&FAR));
                self.csi_calls(beg, end, min_shift, depth)?;
            }
        }
        Ok(())
    }

    /// Regions of all lengths, anywhere or at an edge of some level's bins.
    fn csi_random(&mut self) -> Done {
        for _ in 0..60_000 * self.size {
            let (min_shift, depth) = (10 + self.rng.below(11) as u32, 1 + self.rng.below(8) as u32);
            let bits = u64::from(min_shift + 3 * depth);
            let mut beg = self.rng.below(1 << bits) as i64;
            if self.rng.one_in(3) {
                let level = min_shift + 3 * self.rng.below(depth.into()) as u32;
                beg = ((beg >> level) << level) + self.rng.range(-1, 1);
            }
            let longest = self.rng.below((u64::from(min_shift) + 6).min(bits) + 1);
            let mut end = beg + 1 + self.rng.below(1 << longest) as i64;
            if self.rng.one_in(16) {
                end = (1 << bits) + self.rng.range(-1, 1);
            }
            self.csi_calls(beg, end, min_shift, depth)?;
        }
        Ok(())
    }
}
