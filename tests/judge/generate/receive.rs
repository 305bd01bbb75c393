//! Received records (document 02, item 14): as they are written, with the bin 0 or half of it, with every byte changed by itself, with several parts changed, cut and longer, clipped otherwise, as
//! other clippers leave them; and records sent that are refused, beside received ones that would be.

use super::record::{some_list, stored, whole};
use super::{Bytes, Done, Number, Out, Rng, damage_record, op, ops_of, placed_list};
use crate::oracle;
use crate::rules::{self, Record};

fn check(start: bool) -> &'static str {
    if start { "check_clipped_start" } else { "check_clipped_end" }
}

/// What is written; none where the record is refused.
fn written(record: &[u8], amount: u64, start: bool) -> Option<Vec<u8>> {
    oracle::clipped_record(record, amount, start).ok().map(|(bytes, _)| bytes)
}

/// Where the parts of a whole record begin: the header's four changed numbers among them, and the end.
fn seams(record: &[u8]) -> [usize; 7] {
    let (ops, bases) = Record(record).op_area();
    let l_seq = Record(record).l_seq() as usize;
    let qualities = bases + l_seq.div_ceil(2);
    [0, 32, ops, bases, qualities, qualities + l_seq, record.len()]
}

/// Changes a byte of some parts, if they have one.
fn change_parts(rng: &mut Rng, record: &mut [u8], parts: u64) {
    let seams = seams(record);
    for part in 0..6 {
        if parts >> part & 1 == 1 && seams[part] < seams[part + 1] {
            let at = seams[part] + rng.below((seams[part + 1] - seams[part]) as u64) as usize;
            record[at] ^= 1 << rng.below(8);
        }
    }
}

/// As other clippers leave a record: bases or qualities of the other end, the lost base in an odd last half, the old bin or position.
fn as_others(rng: &mut Rng, sent: &[u8], written: &mut [u8]) {
    let (old, new) = (seams(sent), seams(written));
    let kept = (new[4] - new[3], new[5] - new[4]);
    match rng.below(6) {
        0 => written[new[4]..new[5]].copy_from_slice(&sent[old[4]..old[4] + kept.1]),
        1 => written[new[4]..new[5]].copy_from_slice(&sent[old[5] - kept.1..old[5]]),
        2 => written[new[3]..new[4]].copy_from_slice(&sent[old[3]..old[3] + kept.0]),
        3 if kept.0 > 0 => written[new[4] - 1] |= rng.next() as u8 & 15,
        4 => written[10..12].copy_from_slice(&sent[10..12]),
        _ => written[4..8].copy_from_slice(&sent[4..8]),
    }
}

fn set_bin(record: &mut [u8], bin: [u8; 2]) {
    record[10..12].copy_from_slice(&bin);
}

impl Out<'_> {
    pub(super) fn received_records(&mut self) -> Done {
        self.every_byte()?;
        self.every_bin()?;
        self.every_cut()?;
        self.random_received()?;
        self.refused_sent()?;
        self.received_giants()
    }

    fn check_of(&mut self, sent: &[u8], amount: u64, start: bool, received: &[u8]) -> Done {
        self.say(check(start), &[Bytes(sent), Number(amount), Bytes(received)])
    }

    /// A record to send, an amount that it is mostly not refused for, and an end.
    fn sent(&mut self) -> (Vec<u8>, u64, bool) {
        let list = some_list(&mut self.rng);
        let bases = if self.rng.one_in(8) { stored(&mut self.rng, &list) } else { u32::try_from(rules::query_total(&list)).unwrap_or(0).min(1 << 12) };
        let start = self.rng.one_in(2);
        let amount = if self.rng.one_in(8) { self.amount(&list, start) } else { self.rng.below(rules::clippable(&list, start).min(1 << 13) + 1) };
        (whole(&mut self.rng, list, bases), amount, start)
    }

    /// Every byte of some records changed by itself, and all of its bits.
    fn every_byte(&mut self) -> Done {
        for bases in (1..=9).chain([30, 31]) {
            for start in [false, true] {
                let sent = whole(&mut self.rng, vec![op(4, 1), op(0, bases)], bases as u32 + 1);
                let amount = self.rng.below(bases + 2);
                let Some(written) = written(&sent, amount, start) else { continue };
                for at in 0..written.len() {
                    let mut received = written.clone();
                    received[at] ^= 1 << self.rng.below(8);
                    self.check_of(&sent, amount, start, &received)?;
                    received[at] = self.rng.next() as u8;
                    self.check_of(&sent, amount, start, &received)?;
                }
            }
        }
        Ok(())
    }

    /// The bin: as it is, 0, one byte of it, the bytes in the other order, another; at positions of which the bin has a byte 0, or leaves 16 bits.
    fn every_bin(&mut self) -> Done {
        for turn in 0..600 * self.size {
            let list = placed_list(&mut self.rng, 9);
            let query = rules::query_total(&list) as u32;
            let mut sent = whole(&mut self.rng, list.clone(), query);
            let pos: i32 = match turn % 5 {
                0 => (self.rng.below(32) as i32 - 16) << 14,
                1 => ((256 * (1 + self.rng.below(100)) as i32) - 4681 % 256) << 14,
                2 => i32::MAX - self.rng.below(1 << 16) as i32,
                3 => self.rng.below(1 << 31) as i32,
                _ => -1 - self.rng.below(20) as i32,
            };
            sent[4..8].copy_from_slice(&pos.to_le_bytes());
            let start = self.rng.one_in(2);
            let amount = self.rng.below(rules::clippable(&list, start) + 1);
            let Some(mut received) = written(&sent, amount, start) else { continue };
            let bin = [received[10], received[11]];
            for other in [bin, [0, 0], [bin[0], 0], [0, bin[1]], [bin[1], bin[0]], [bin[0].wrapping_add(1), bin[1]], [sent[10], sent[11]]] {
                set_bin(&mut received, other);
                self.check_of(&sent, amount, start, &received)?;
            }
        }
        Ok(())
    }

    /// Received records that end before every byte of their own, or go on behind it.
    fn every_cut(&mut self) -> Done {
        for _ in 0..25 * self.size {
            let list = placed_list(&mut self.rng, 9);
            let query = if self.rng.one_in(3) { 0 } else { rules::query_total(&list) as u32 };
            let sent = whole(&mut self.rng, list.clone(), query);
            let start = self.rng.one_in(2);
            let amount = self.rng.below(rules::clippable(&list, start) + 1);
            let Some(mut received) = written(&sent, amount, start) else { continue };
            for length in 0..=received.len() {
                self.check_of(&sent, amount, start, &received[..length])?;
            }
            for _ in 0..5 {
                received.push(self.rng.pick(&[0, 0, 1, 255]));
                self.check_of(&sent, amount, start, &received)?;
            }
        }
        Ok(())
    }

    fn random_received(&mut self) -> Done {
        for _ in 0..30_000 * self.size {
            let (sent, amount, start) = self.sent();
            let Some(mut received) = written(&sent, amount, start) else {
                self.check_of(&sent, amount, start, &sent)?;
                continue;
            };
            match self.rng.below(10) {
                0 => {}
                1 => set_bin(&mut received, [0, 0]),
                2..=4 => {
                    let parts = 1 << self.rng.below(6);
                    change_parts(&mut self.rng, &mut received, parts);
                }
                5 => {
                    let parts = self.rng.below(64);
                    change_parts(&mut self.rng, &mut received, parts);
                }
                6 | 7 => as_others(&mut self.rng, &sent, &mut received),
                8 => {
                    // clipped by another amount, at the other end, or not at all
                    let (other, end) = (self.rng.below(amount + 2), self.rng.one_in(2));
                    received = written(&sent, other, end).unwrap_or_else(|| sent.clone());
                }
                _ => damage_record(&mut self.rng, &mut received),
            }
            self.check_of(&sent, amount, start, &received)?;
        }
        Ok(())
    }

    /// Sent records that are refused, beside received ones of every kind: under 32 bytes, cut, damaged, of a length that no record has.
    fn refused_sent(&mut self) -> Done {
        for turn in 0..6_000 * self.size {
            let (mut sent, amount, start) = self.sent();
            let mut received = written(&sent, amount, start).unwrap_or_else(|| sent.clone());
            if turn % 3 > 0 {
                damage_record(&mut self.rng, &mut sent);
            }
            match self.rng.below(5) {
                0 => received.truncate(self.rng.below(33) as usize),
                1 => received.truncate(self.rng.below(received.len() as u64 + 1) as usize),
                2 if received.len() >= 32 => {
                    let lie = self.rng.pick(&[u32::MAX, u32::MAX - 1, 1 << 31, (1 << 31) - 1, 1 << 30, 1, 0]);
                    received[16..20].copy_from_slice(&lie.to_le_bytes());
                }
                3 => damage_record(&mut self.rng, &mut received),
                _ => {}
            }
            let amount = if ops_of(&sent).is_empty() { self.rng.below(3) } else { amount };
            self.check_of(&sent, amount, start, &received)?;
        }
        Ok(())
    }

    /// Lists of 65,535 ops, accepted, with the last op changed, and refused by 16.
    fn received_giants(&mut self) -> Done {
        for start in [false, true] {
            let mut list = vec![op(0, 1); 65_535];
            list[if start { 0 } else { 65_534 }] = op(4, 5);
            let query = rules::query_total(&list) as u32;
            let sent = whole(&mut self.rng, list, query);
            for amount in [0, 3, 5] {
                let mut received = written(&sent, amount, start).unwrap_or_else(|| sent.clone());
                self.check_of(&sent, amount, start, &received)?;
                let last = seams(&received)[3] - 1;
                received[last] ^= 1;
                self.check_of(&sent, amount, start, &received)?;
            }
        }
        Ok(())
    }
}
