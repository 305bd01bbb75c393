//! Document 02, item 11, CSI bins, which the original lacks: a plain second program, written from the request's words. Nothing here asks the port.

/// 17: "depth or shift out of range"; 18: "unless 0 <= beg < end <= 2^(min_shift + 3 * depth)".
pub fn refusal(beg: i64, end: i64, min_shift: u32, depth: u32) -> Option<u8> {
    if !(10..=20).contains(&min_shift) || !(1..=8).contains(&depth) {
        return Some(17);
    }
    let genome = 1i64 << (min_shift + 3 * depth);
    (beg < 0 || beg >= end || end > genome).then_some(18)
}

/// The levels from the coarsest: the first bin's number, and the bases of a bin. Each has eight times the bins of the one before, and an eighth of the bases.
pub fn levels(min_shift: u32, depth: u32) -> Vec<(u32, i64)> {
    let (mut first, mut bins, mut bases) = (0, 1, 1i64 << (min_shift + 3 * depth));
    let mut levels = Vec::new();
    for _ in 0..=depth {
        levels.push((first, bases));
        (first, bins, bases) = (first + bins, bins * 8, bases / 8);
    }
    levels
}

/// "start at the finest level, and go up one level, with one level fewer left, while the ends differ"
pub fn bin(beg: i64, end: i64, min_shift: u32, depth: u32) -> u32 {
    let same = |&&(_, bases): &&(u32, i64)| beg / bases == (end - 1) / bases;
    let levels = levels(min_shift, depth);
    let (first, bases) = levels.iter().rev().find(same).expect("the coarsest level has one bin");
    first + (beg / bases) as u32
}

/// How many bins may overlap a region.
pub fn count(beg: i64, end: i64, min_shift: u32, depth: u32) -> i64 {
    levels(min_shift, depth).iter().map(|(_, bases)| (end - 1) / bases - beg / bases + 1).sum()
}

/// "all bins that may overlap a region, each once, level by level from the coarsest, ascending in each"
pub fn bins(beg: i64, end: i64, min_shift: u32, depth: u32) -> Vec<u32> {
    levels(min_shift, depth).iter().flat_map(|(first, bases)| (beg / bases..=(end - 1) / bases).map(move |i| first + i as u32)).collect()
}
