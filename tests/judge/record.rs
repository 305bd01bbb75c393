//! The clipped record (document 02, item 8). The original writes none: this is a second program, written from the request's words. What it is given is the list that the original clips, and
//! the bin of what it writes is the original's, too.

use crate::rules::{self, MOST_OPS, Record};

/// A record taken apart: its fixed fields, its name, its ops, its bases one by one, its qualities, its tags.
pub struct Parts<'a> {
    fields: &'a [u8],
    name: &'a [u8],
    pub ops: Vec<u32>,
    bases: Vec<u8>,
    qualities: &'a [u8],
    tags: &'a [u8],
}

/// The next bytes of a record; 2 where it ends before the last of them.
fn next<'a>(left: &mut &'a [u8], bytes: usize) -> Result<&'a [u8], u8> {
    let (first, rest) = left.split_at_checked(bytes).ok_or(2)?;
    *left = rest;
    Ok(first)
}

/// "Bases are two to a byte, first in the high four bits".
fn unpacked(bytes: &[u8], count: usize) -> Vec<u8> {
    bytes.iter().flat_map(|two| [two / 16, two % 16]).take(count).collect()
}

/// ".. an odd last half is 0."
fn packed(bases: &[u8]) -> Vec<u8> {
    bases.chunks(2).map(|two| two[0] * 16 + two.get(1).unwrap_or(&0)).collect()
}

/// 1, then 2 where the op area ends past the record, and "2 also where the record ends before its last quality".
pub fn apart(record: &[u8]) -> Result<Parts<'_>, u8> {
    if let Some(n) = rules::too_short(record) {
        return Err(n);
    }
    let (ops_start, ops_end) = Record(record).op_area();
    let l_seq = Record(record).l_seq() as usize;
    let mut left = record;
    let fields = next(&mut left, 32)?;
    let name = next(&mut left, ops_start - 32)?;
    let ops = rules::as_ops(next(&mut left, ops_end - ops_start)?);
    let bases = unpacked(next(&mut left, l_seq.div_ceil(2))?, l_seq);
    let qualities = next(&mut left, l_seq)?;
    Ok(Parts { fields, name, ops, bases, qualities, tags: left })
}

/// "new ops, op count and l_seq, `pos` moved by the start count, .. packed bases and qualities of the lost query part removed, name and tags unchanged"; the bin is still the old one.
/// Or 15, 16 or 4.
pub fn clipped(record: &Parts, ops: &[u32], count: usize, start: bool) -> Result<Vec<u8>, u8> {
    let (l_seq, query) = (record.bases.len(), rules::query_total(&record.ops));
    if l_seq != 0 && query != l_seq as i64 {
        return Err(15);
    }
    if ops.len() > MOST_OPS {
        return Err(16);
    }
    let pos = i32::try_from(Record(record.fields).pos() + count as i64).map_err(|_| 4)?;
    // "The lost query part is the drop in query length, taken from the chosen end"; "with l_seq 0 nothing is removed there"
    let lost = if l_seq == 0 { 0 } else { (query - rules::query_total(ops)) as usize };
    let kept = if start { lost..l_seq } else { 0..l_seq - lost };
    let mut written = record.fields.to_vec();
    written[4..8].copy_from_slice(&pos.to_le_bytes());
    written[12..14].copy_from_slice(&(ops.len() as u16).to_le_bytes());
    written[16..20].copy_from_slice(&(kept.len() as u32).to_le_bytes());
    written.extend_from_slice(record.name);
    written.extend(ops.iter().flat_map(|op| op.to_le_bytes()));
    written.extend(packed(&record.bases[kept.clone()]));
    written.extend_from_slice(&record.qualities[kept]);
    written.extend_from_slice(record.tags);
    Ok(written)
}
