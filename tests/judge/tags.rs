//! Document 02, item 1: the part of a record that holds its true op list, read by the request's words. The original has no such reader: this is a second one, and
//! nothing here asks the port.

use crate::rules::{self, MOST_LONG_OPS, Record};

/// The bytes of a number of a type: "inside B only c to f".
fn number(kind: u8) -> Option<u64> {
    match kind {
        b'c' | b'C' => Some(1),
        b's' | b'S' => Some(2),
        b'i' | b'I' | b'f' => Some(4),
        _ => None,
    }
}

/// The value of a type that stands first in some bytes; none where the type is not listed, and where they end before the value does.
fn value(kind: u8, bytes: &[u8]) -> Option<&[u8]> {
    let size = match kind {
        b'A' => 1,
        b'Z' | b'H' => bytes.iter().position(|&b| b == 0)? as u64 + 1,
        b'B' => {
            let count = bytes.get(1..5)?.iter().rev().fold(0, |n, &b| n * 256 + u64::from(b));
            5 + number(bytes[0])? * count
        }
        _ => number(kind)?,
    };
    bytes.get(..usize::try_from(size).ok()?)
}

/// "A placeholder is exactly two ops, an S of length l_seq and an N of any length."
fn is_placeholder(ops: &[u32], l_seq: i64) -> bool {
    matches!(ops, [s, n] if rules::code(*s) == 4 && rules::length(*s) == l_seq && rules::code(*n) == 3)
}

/// The part that holds the list, or the refusal: 1, 2, 12, 13, 3.
pub fn true_part(record: &[u8]) -> Result<&[u8], u8> {
    if let Some(n) = rules::too_short(record) {
        return Err(n);
    }
    let fields = Record(record);
    let (start, end) = fields.op_area();
    let own = record.get(start..end).ok_or(2)?;
    let l_seq = fields.l_seq();
    if !is_placeholder(&rules::as_ops(own), l_seq) {
        return Ok(own);
    }
    let mut tags = record.get(end + ((l_seq + 1) / 2 + l_seq) as usize..).ok_or(12)?;
    while !tags.is_empty() {
        let kind = *tags.get(2).ok_or(12)?;
        let value = value(kind, &tags[3..]).ok_or(12)?;
        if &tags[..2] == b"CG" {
            if kind != b'B' || value[0] != b'I' {
                return Err(13);
            }
            return if value.len() - 5 > 4 * MOST_LONG_OPS { Err(3) } else { Ok(&value[5..]) };
        }
        tags = &tags[3 + value.len()..];
    }
    Ok(own)
}
