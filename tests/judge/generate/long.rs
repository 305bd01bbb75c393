//! Long op lists (document 02, item 1): records with a placeholder, or nearly one, and tags of every type behind it, whole and damaged; lists around the two limits.

use super::{Arg, Bytes, Done, Flag, List, MOST_LENGTH, Number, Out, Record, Rng, Room, clipped_places, damage_record, op, random_list, text_of};
use crate::rules::{self, MOST_LONG_OPS};
use crate::tags;

pub(super) const KINDS: &[u8; 11] = b"AcCsSiIfZHB";
const NUMBERS: &[u8; 7] = b"cCsSiIf";
pub(super) const NAMES: [&[u8; 2]; 8] = [b"NM", b"RG", b"CC", b"GG", b"GC", b"cg", b"C\0", b"\0G"];
const LONG_LISTS: [&str; 2] = ["long_reference_length_from_cigar", "long_query_length_from_cigar"];

fn width(number: u8) -> usize {
    match number {
        b'c' | b'C' => 1,
        b's' | b'S' => 2,
        _ => 4,
    }
}

fn push_noise(rng: &mut Rng, bytes: &mut Vec<u8>, n: usize) {
    bytes.extend((0..n).map(|_| rng.next() as u8));
}

/// A whole value of a type.
fn push_value(rng: &mut Rng, kind: u8, bytes: &mut Vec<u8>) {
    match kind {
        b'A' => push_noise(rng, bytes, 1),
        b'Z' | b'H' => {
            bytes.extend((0..rng.below(6)).map(|_| 1 + rng.below(255) as u8));
            bytes.push(0);
        }
        b'B' => {
            let (number, count) = (rng.pick(NUMBERS), rng.below(4) as usize);
            bytes.push(number);
            bytes.extend_from_slice(&(count as u32).to_le_bytes());
            push_noise(rng, bytes, count * width(number));
        }
        number => push_noise(rng, bytes, width(number)),
    }
}

/// A whole tag.
pub(super) fn push_tag(rng: &mut Rng, name: &[u8; 2], kind: u8, bytes: &mut Vec<u8>) {
    bytes.extend_from_slice(name);
    bytes.push(kind);
    push_value(rng, kind, bytes);
}

/// CG with a list, of a count that may say another number of ops, and of a type of number.
fn push_cg(list: &[u32], count: u32, number: u8, bytes: &mut Vec<u8>) {
    bytes.extend_from_slice(b"CGB");
    bytes.push(number);
    bytes.extend_from_slice(&count.to_le_bytes());
    bytes.extend(list.iter().flat_map(|op| op.to_le_bytes()));
}

/// CG: mostly of ops; or of another type, or of a count that is not the list's.
fn push_any_cg(rng: &mut Rng, bytes: &mut Vec<u8>) {
    let list = random_list(rng);
    let count = list.len() as u32;
    match rng.below(9) {
        0 => push_cg(&list, count, rng.pick(b"if"), bytes),
        1 => {
            let kind = rng.pick(KINDS);
            push_tag(rng, b"CG", kind, bytes);
        }
        2 => push_cg(&list, count.wrapping_add(rng.pick(&[1, u32::MAX, 1 << 30])), b'I', bytes),
        _ => push_cg(&list, count, b'I', bytes),
    }
}

/// What is no whole tag of a listed type: another type, a text without its end, an array of text, of too many numbers, cut in its count; one or two bytes.
fn push_odd(rng: &mut Rng, bytes: &mut Vec<u8>) {
    let name = if rng.one_in(3) { b"CG" } else { rng.pick(&NAMES) };
    let odd: &[u8] = match rng.below(8) {
        0 => b"d\0\0\0\0\0\0\0\0",
        1 => b"a\0",
        2 => b"Zno end",
        3 => b"Hff",
        4 => b"BZ\x01\0\0\0",
        5 => b"BI\xff\xff\xff\xff",
        6 => b"BI\x01\0\0",
        _ => return bytes.extend_from_slice(&name[..1 + rng.below(2) as usize]),
    };
    bytes.extend_from_slice(name);
    bytes.extend_from_slice(odd);
}

/// A placeholder for so many bases; or, one time in six, what is none.
fn front_ops(rng: &mut Rng, bases: u64) -> Vec<u32> {
    let skip = rng.below(MOST_LENGTH + 1);
    match rng.below(12) {
        0 => {
            let (s, n) = (op(4, bases), op(3, skip));
            let shapes: [&[u32]; 7] = [&[op(4, bases + 1), n], &[s, op(2, skip)], &[op(5, bases), n], &[n, s], &[s, n, op(0, 1)], &[s], &[]];
            rng.pick(&shapes).to_vec()
        }
        1 => random_list(rng),
        _ => vec![op(4, bases), op(3, skip)],
    }
}

/// A record up to its tags: its ops, bases and qualities.
pub(super) fn front(rng: &mut Rng, bases: u32, ops: Vec<u32>) -> Vec<u8> {
    let mut record = Record::new(rng, ops);
    record.tail = (bases.div_ceil(2) + bases) as usize;
    let mut bytes = record.bytes(rng);
    bytes[16..20].copy_from_slice(&bases.to_le_bytes());
    bytes
}

pub(super) fn tagged_record(rng: &mut Rng) -> Vec<u8> {
    let bases = rng.pick(&[0, 0, 1, 2, 3, 30, 31]);
    let ops = front_ops(rng, bases.into());
    let mut bytes = front(rng, bases, ops);
    for _ in 0..rng.below(6) {
        match rng.below(10) {
            0 => push_odd(rng, &mut bytes),
            1..=3 => push_any_cg(rng, &mut bytes),
            _ => {
                let (name, kind) = (rng.pick(&NAMES), rng.pick(KINDS));
                push_tag(rng, name, kind, &mut bytes);
            }
        }
    }
    bytes
}

impl Out<'_> {
    pub(super) fn long(&mut self) -> Done {
        self.tagged_records()?;
        self.types_before()?;
        self.long_lists()?;
        self.long_giants()
    }

    /// Every call on the true list; and now and then those on the record's own, which read a placeholder as it stands.
    fn true_calls(&mut self, record: &[u8]) -> Done {
        for call in ["true_cigar_raw_bytes", "true_cigar_lengths"] {
            self.say(call, &[Bytes(record)])?;
        }
        let list = tags::true_part(record).map_or(Vec::new(), rules::as_ops);
        let room = self.room(list.len());
        self.say("true_cigar_ops", &[Bytes(record), room])?;
        let room = self.room(text_of(&list).len());
        self.say("true_cigar_to_bytes_into", &[Bytes(record), room])?;
        self.say("true_unclipped_5prime_from_raw_bam", &[Bytes(record)])?;
        let start = self.rng.one_in(2);
        let amount = self.amount(&list, start);
        let room = self.room(clipped_places(&list, amount, start));
        self.say(if start { "true_clip_cigar_start" } else { "true_clip_cigar_end" }, &[Bytes(record), Number(amount), room])?;
        if self.rng.one_in(8) { self.record_calls(record) } else { Ok(()) }
    }

    fn long_clip(&mut self, list: &[u32], start: bool, amount: u64) -> Done {
        let room = self.room(clipped_places(list, amount, start));
        self.say(if start { "long_clip_cigar_start_raw" } else { "long_clip_cigar_end_raw" }, &[List(list), Number(amount), room])
    }

    fn tagged_records(&mut self) -> Done {
        for _ in 0..40_000 * self.size {
            let mut record = tagged_record(&mut self.rng);
            if self.rng.one_in(6) {
                damage_record(&mut self.rng, &mut record);
            }
            self.true_calls(&record)?;
        }
        for _ in 0..60 * self.size {
            let record = tagged_record(&mut self.rng);
            for length in 0..=record.len().min(600) {
                self.true_calls(&record[..length])?;
            }
        }
        Ok(())
    }

    /// CG behind a tag of every type, of odd and even numbers of bases; and twice, the first or the second with a fault.
    fn types_before(&mut self) -> Done {
        for bases in [0, 1, 2, 7] {
            let record = front(&mut self.rng, bases, vec![op(4, bases.into()), op(3, 9)]);
            for kind in 0..=255 {
                let mut bytes = record.clone();
                bytes.extend_from_slice(&[b'X', b'Y', kind]);
                if KINDS.contains(&kind) {
                    push_value(&mut self.rng, kind, &mut bytes);
                } else {
                    bytes.extend_from_slice(&[0; 4]);
                }
                push_cg(&[op(0, 3), op(4, 2)], 2, b'I', &mut bytes);
                self.true_calls(&bytes)?;
            }
            for first in [b'I', b'i'] {
                let mut bytes = record.clone();
                push_cg(&[op(0, 3)], 1, first, &mut bytes);
                push_cg(&[op(1, 5), op(2, 7)], 2, if first == b'I' { b'i' } else { b'I' }, &mut bytes);
                self.true_calls(&bytes)?;
            }
        }
        Ok(())
    }

    fn long_lists(&mut self) -> Done {
        for _ in 0..10_000 * self.size {
            let list = random_list(&mut self.rng);
            for call in LONG_LISTS {
                self.say(call, &[List(&list)])?;
            }
            let start = self.rng.pick(&[0, 1, 1, 100, 100, 1 << 31, (1 << 31) + 1]);
            let position = start + self.rng.below(rules::reference_total(&list) as u64 + 3);
            let last = self.rng.one_in(2);
            self.say("long_read_pos_at_ref_pos_raw", &[List(&list), Number(start), Number(position), Flag(last)])?;
            for start in [true, false] {
                let amount = self.amount(&list, start);
                self.long_clip(&list, start, amount)?;
            }
        }
        Ok(())
    }

    /// Lists around both limits; and records of up to 70,000 ops, of which a line has a megabyte. tests/run.d/long has records around 1,048,576.
    fn long_giants(&mut self) -> Done {
        for count in [65_535, 65_536, MOST_LONG_OPS - 1, MOST_LONG_OPS, MOST_LONG_OPS + 1] {
            for value in [op(0, 1), op(4, 1), op(0, 0), op(9, 1), op(0, MOST_LENGTH), op(1, MOST_LENGTH)] {
                let mut list = vec![value; count];
                list[count - 1] = op(0, 2);
                for call in LONG_LISTS {
                    self.say(call, &[List(&list)])?;
                }
                for start in [true, false] {
                    for amount in [0, count as u64 / 2, rules::clippable(&list, start)] {
                        self.long_clip(&list, start, amount)?;
                    }
                }
                for (start, past) in [(0, 0), (1, count as u64 - 1), (1, count as u64), (100, count as u64 + 1)] {
                    self.say("long_read_pos_at_ref_pos_raw", &[List(&list), Number(start), Number(start + past), Flag(true)])?;
                }
            }
        }
        for count in [65_535, 65_536, 70_000] {
            let list: Vec<u32> = (0..count).map(|_| op(self.rng.pick(&[0, 1, 2, 7, 8]), 1 + self.rng.below(40))).collect();
            let mut bytes = front(&mut self.rng, 5, vec![op(4, 5), op(3, 9)]);
            push_tag(&mut self.rng, b"NM", b'C', &mut bytes);
            push_cg(&list, count, b'I', &mut bytes);
            self.true_calls(&bytes)?;
            self.true_calls(&bytes[..bytes.len() - 1])?;
            for room in [0, list.len(), list.len() + 1] {
                let room: Arg = Room(room);
                self.say("true_cigar_ops", &[Bytes(&bytes), room])?;
            }
        }
        Ok(())
    }
}
