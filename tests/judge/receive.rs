//! The receiving check (document 02, item 14). The original has none: this is a second program, written from the request's words. What it is given is the record that item 8 writes of the
//! one that was sent.

use crate::rules::Record;

/// Where a record's name, ops, bases, qualities and tags begin, by its own header.
fn places(record: &[u8]) -> [usize; 5] {
    let (ops, bases) = Record(record).op_area();
    let l_seq = Record(record).l_seq() as usize;
    let qualities = bases + l_seq.div_ceil(2);
    [32, ops, bases, qualities, qualities + l_seq]
}

/// "apart from the two bin bytes, which may also hold 0"
fn same_header(written: &[u8], received: &[u8]) -> bool {
    let bin = &received[10..12];
    written[..10] == received[..10] && written[12..32] == received[12..32] && (bin == &written[10..12] || bin == [0, 0])
}

/// 0 where the received record is accepted; else "the first differing part: header, name, ops, bases, qualities, tags", by the places of the record that item 8 writes. Or 23 or 24.
pub fn first_difference(written: &[u8], received: &[u8]) -> Result<u8, u8> {
    if received.len() < 32 {
        return Err(23);
    }
    if received.len() < places(received)[4] {
        return Err(24);
    }
    if !same_header(written, received) {
        return Ok(1);
    }
    // equal headers: the parts begin at the same places
    let starts = places(written);
    for part in 0..5 {
        let end = |record: &[u8]| starts.get(part + 1).copied().unwrap_or(record.len());
        if written[starts[part]..end(written)] != received[starts[part]..end(received)] {
            return Ok(2 + part as u8);
        }
    }
    Ok(0)
}
