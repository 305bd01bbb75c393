//! Records to be clipped whole (document 02, item 8): every number of bases with every loss at both ends, short lists exhaustively, stored lengths that are wrong, records cut at every byte, positions
//! from which the new one or the bin's sum leaves 32 bits, op counts at 65,535.

use super::long::{KINDS, NAMES, front, push_tag, tagged_record};
use super::{ALL_CODES, Bytes, Done, MOST_LENGTH, Number, Out, Rng, Room, SECOND_HALF, any_list, damage_record, nth_list, op, ops_of, placed_list, position, random_list};
use crate::{oracle, rules};

/// The calls, by the end.
fn clip_whole(start: bool) -> &'static str {
    if start { "clip_record_start" } else { "clip_record_end" }
}

/// The bytes that the clipped record has; those of the record where clipping refuses it.
fn written_bytes(record: &[u8], amount: u64, start: bool) -> usize {
    oracle::clipped_record(record, amount, start).map_or(record.len(), |(written, _)| written.len())
}

/// A stored length: mostly the query's, or none; now and then one that is near, or far too large.
pub(super) fn stored(rng: &mut Rng, ops: &[u32]) -> u32 {
    let query = u32::try_from(rules::query_total(ops)).unwrap_or(0).min(1 << 12);
    match rng.below(12) {
        0..=7 => query,
        8 | 9 => 0,
        10 => query + 1,
        _ => query.saturating_sub(1),
    }
}

/// A position: any, or one that comes to an edge of 32 bits, of 0 or of a bin by what the start may lose.
fn moved_position(rng: &mut Rng, ops: &[u32]) -> i32 {
    let lost = rng.below(rules::reference_total(ops) as u64 + 2) as i64;
    match rng.below(6) {
        0 | 1 => position(rng, ops),
        2 => rng.i32_near(-lost),
        3 => rng.i32_near(SECOND_HALF - lost),
        _ => {
            let edge = 1 << rng.pick(&[14, 17, 20, 23, 26, 29]);
            rng.i32_near(edge - lost)
        }
    }
}

/// A record of these ops and so many bases, with tags behind it.
pub(super) fn whole(rng: &mut Rng, ops: Vec<u32>, bases: u32) -> Vec<u8> {
    let pos = moved_position(rng, &ops);
    let mut bytes = front(rng, bases, ops);
    bytes[4..8].copy_from_slice(&pos.to_le_bytes());
    for _ in 0..rng.below(3) {
        let (name, kind) = (rng.pick(&NAMES), rng.pick(KINDS));
        push_tag(rng, name, kind, &mut bytes);
    }
    bytes
}

pub(super) fn some_list(rng: &mut Rng) -> Vec<u32> {
    match rng.below(8) {
        0..=3 => placed_list(rng, 12),
        4 => any_list(rng, 8, &ALL_CODES, 9),
        5 => placed_list(rng, 70),
        6 => any_list(rng, 40, &[0, 1, 2, 3, 4, 5, 6, 7, 8], 30),
        _ => random_list(rng),
    }
}

impl Out<'_> {
    pub(super) fn whole_records(&mut self) -> Done {
        self.every_loss()?;
        self.short_whole()?;
        self.random_whole()?;
        self.cut_whole()?;
        self.lying_lengths()?;
        self.wide_sums()?;
        self.whole_giants()
    }

    fn clip_of(&mut self, record: &[u8], amount: u64, start: bool) -> Done {
        let room = self.room(written_bytes(record, amount, start));
        self.say(clip_whole(start), &[Bytes(record), Number(amount), room])
    }

    /// Every number of bases to 70 and some up to 4,096 and one more, each with every loss or some, at both ends.
    fn every_loss(&mut self) -> Done {
        for bases in (0u32..=70).chain([127, 128, 129, 255, 256, 257, 1000, 4096, 4097]) {
            let step = 1 + bases as usize / 40;
            for lost in (0..=bases).step_by(step).chain([1, 2, 3, bases.saturating_sub(1), bases]) {
                for start in [false, true] {
                    let record = whole(&mut self.rng, vec![op(0, bases.into())], bases);
                    self.clip_of(&record, lost.min(bases).into(), start)?;
                }
            }
        }
        Ok(())
    }

    /// All lists of up to 2 ops over 16 codes and lengths 0 to 3, some of 3 ops; every amount to one past what can be clipped.
    fn short_whole(&mut self) -> Done {
        for length in 0..=3 {
            for number in 0..64u64.pow(length) {
                if length == 3 && !self.rng.one_in((96 / self.size).max(1)) {
                    continue;
                }
                let list = nth_list(number, length);
                let bases = stored(&mut self.rng, &list);
                let record = whole(&mut self.rng, list.clone(), bases);
                for start in [false, true] {
                    for amount in 0..=rules::clippable(&list, start) + 1 {
                        self.clip_of(&record, amount, start)?;
                    }
                }
            }
        }
        Ok(())
    }

    fn random_whole(&mut self) -> Done {
        for turn in 0..40_000 * self.size {
            let mut record = if turn % 8 == 0 {
                tagged_record(&mut self.rng)
            } else {
                let list = some_list(&mut self.rng);
                let bases = stored(&mut self.rng, &list);
                whole(&mut self.rng, list, bases)
            };
            if self.rng.one_in(10) {
                damage_record(&mut self.rng, &mut record);
            }
            let list = ops_of(&record);
            for start in [false, true] {
                let amount = self.amount(&list, start);
                self.clip_of(&record, amount, start)?;
            }
        }
        Ok(())
    }

    /// Records that end before every byte of their own.
    fn cut_whole(&mut self) -> Done {
        for _ in 0..40 * self.size {
            let list = placed_list(&mut self.rng, 9);
            let bases = stored(&mut self.rng, &list);
            let record = whole(&mut self.rng, list.clone(), bases);
            for length in 0..=record.len() {
                let start = self.rng.one_in(2);
                let amount = self.rng.below(rules::clippable(&list, start) + 2);
                self.clip_of(&record[..length], amount, start)?;
            }
        }
        Ok(())
    }

    /// Stored lengths that the record can't have: 2 where bases or qualities end past it, 15 where the tags make up for them.
    fn lying_lengths(&mut self) -> Done {
        for _ in 0..2_000 * self.size {
            let list = placed_list(&mut self.rng, 9);
            let query = rules::query_total(&list) as u32;
            let mut record = whole(&mut self.rng, list.clone(), query);
            let lie = match self.rng.below(5) {
                0 => self.rng.pick(&[u32::MAX, u32::MAX - 1, 1 << 31, (1 << 31) - 1, 1 << 30]),
                1 => self.rng.below(u64::from(query) + 1) as u32,
                _ => query + 1 + self.rng.below(12) as u32,
            };
            record[16..20].copy_from_slice(&lie.to_le_bytes());
            let start = self.rng.one_in(2);
            let amount = self.rng.below(rules::clippable(&list, start) + 3);
            self.clip_of(&record, amount, start)?;
        }
        Ok(())
    }

    /// Lists whose lengths come to 2^28 in all, without a sequence: 8 and what is just below it; and sequences that no record has, so that 15 meets 19, 16 and 4.
    fn wide_sums(&mut self) -> Done {
        for _ in 0..1_500 * self.size {
            let total = (1 << 28) - 3 + self.rng.below(5);
            let list = super::list_of_total(&mut self.rng, total, &[0, 0, 1, 2, 3, 4, 5, 7]);
            let bases = self.rng.pick(&[0, 0, 0, 5]);
            let record = whole(&mut self.rng, list.clone(), bases);
            for start in [false, true] {
                let amount = self.amount(&list, start);
                self.clip_of(&record, amount, start)?;
            }
        }
        Ok(())
    }

    /// 65,534 and 65,535 ops, of which a clip makes one more where it leaves a part of an S: 16, before and behind every other refusal.
    fn whole_giants(&mut self) -> Done {
        for (count, inner) in [(65_534, op(0, 0)), (65_535, op(0, 0)), (65_535, op(2, MOST_LENGTH / 65_535)), (65_535, op(7, 1))] {
            for start in [false, true] {
                let mut list = vec![inner; count];
                list[if start { 0 } else { count - 1 }] = op(4, 5);
                let query = rules::query_total(&list) as u32;
                let record = whole(&mut self.rng, list, query);
                for amount in [0, 3, 5, 6] {
                    self.clip_of(&record, amount, start)?;
                }
                let mut other = record.clone();
                other[4..8].copy_from_slice(&i32::MAX.to_le_bytes());
                self.say(clip_whole(start), &[Bytes(&other), Number(3), Room(0)])?;
                self.say(clip_whole(start), &[Bytes(&other), Number(5), Room(0)])?;
                other[16..20].copy_from_slice(&1u32.to_le_bytes());
                self.say(clip_whole(start), &[Bytes(&other), Number(3), Room(0)])?;
            }
        }
        Ok(())
    }
}
