//! The blocks of a spliced alignment (document 02, item 5). The original has none: this is a second program, written from the request's words.

use crate::rules;

/// A block: where it starts, relative to chromStart, and its size.
pub type Block = (i64, i64);

/// What stands between two N's, or an N and an end of the list: where each such stretch starts, and its reference length.
fn stretches(list: &[u32]) -> Vec<Block> {
    let is_skip = |op: &u32| rules::code(*op) == 3;
    let sizes: Vec<i64> = list.split(is_skip).map(rules::reference_total).collect();
    let skips: Vec<i64> = list.iter().filter(|&op| is_skip(op)).map(|&op| rules::length(op)).collect();
    let mut start = 0;
    let mut found = Vec::new();
    for (place, &size) in sizes.iter().enumerate() {
        found.push((start, size));
        start += size + skips.get(place).unwrap_or(&0);
    }
    found
}

/// chromEnd and the blocks, or 14 or 4.
pub fn blocks(start: i32, list: &[u32]) -> Result<(i64, Vec<Block>), u8> {
    let stretches = stretches(list);
    let makes_a_block = |stretch: &Block| stretch.1 != 0;
    let first = stretches.iter().position(makes_a_block);
    let last = stretches.iter().rposition(makes_a_block);
    // behind each stretch but the last stands an N
    if start < 0 || first != Some(0) || last != Some(stretches.len() - 1) {
        return Err(14);
    }
    let end = i64::from(start) + rules::reference_total(list);
    if end > i64::from(i32::MAX) {
        return Err(4);
    }
    Ok((end, stretches.into_iter().filter(makes_a_block).collect()))
}
