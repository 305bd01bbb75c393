// All regions of a small genome, put to the proved CSI calls through the Rust binding: each answer is held to the judge's plain second program, and to a reading by intervals, which asks
// every bin of every level whether it holds the region, and whether it meets it. Lists are lent their exact room, and where a region reaches the genome's end one place less, too.
#[allow(dead_code)]
#[path = "../bindings/rust/src/lib.rs"]
mod port;
#[allow(dead_code)]
#[path = "judge/csi.rs"]
mod csi;

const FILL: u32 = 2_779_096_485;

/// Every bin of a genome: its number, where it begins, and how many bases it has.
fn all_bins(min_shift: u32, depth: u32) -> Vec<(u32, i64, i64)> {
    let genome = 1i64 << (min_shift + 3 * depth);
    csi::levels(min_shift, depth).into_iter().flat_map(|(first, bases)| (0..genome / bases).map(move |i| (first + i as u32, i * bases, bases))).collect()
}

/// The smallest bin that holds the region, and all that meet it, by asking each.
fn by_intervals(bins: &[(u32, i64, i64)], beg: i64, end: i64, meeting: &mut Vec<u32>) -> u32 {
    meeting.clear();
    let mut smallest = (i64::MAX, 0);
    for &(number, start, bases) in bins {
        if start < end && beg < start + bases {
            meeting.push(number);
            if start <= beg && end <= start + bases && bases < smallest.0 {
                smallest = (bases, number);
            }
        }
    }
    smallest.1
}

/// How many regions there are whose beginnings and ends are a step apart, and of how many the answers differ.
fn differing(min_shift: u32, depth: u32, step: i64) -> (u64, u64) {
    let bins = all_bins(min_shift, depth);
    let genome = 1i64 << (min_shift + 3 * depth);
    let (mut meeting, mut out) = (Vec::new(), vec![FILL; bins.len() + 1]);
    let (mut asked, mut differ) = (0, 0);
    for beg in (0..genome).step_by(step as usize) {
        for end in (beg + 1..=genome).step_by(step as usize) {
            let bin = by_intervals(&bins, beg, end, &mut meeting);
            let n = meeting.len();
            let mut right = port::csi_reg2bin(beg, end, min_shift, depth) == Ok(bin) && csi::bin(beg, end, min_shift, depth) == bin;
            right &= csi::count(beg, end, min_shift, depth) == n as i64;
            right &= port::csi_reg2bins(beg, end, min_shift, depth, &mut out[..n]) == Ok(n) && out[..n] == meeting[..] && out[n] == FILL;
            out[..n].fill(FILL);
            if end == genome {
                right &= csi::bins(beg, end, min_shift, depth) == meeting;
                right &= port::csi_reg2bins(beg, end, min_shift, depth, &mut out[..n - 1]) == Err(port::Refusal::NoRoom) && out.iter().all(|&place| place == FILL);
            }
            asked += 1;
            differ += u64::from(!right);
        }
    }
    (asked, differ)
}

fn main() {
    let mut failed = 0;
    for (min_shift, depth, step) in [(10, 1, 1), (11, 1, 3), (10, 2, 37), (12, 2, 211)] {
        let (asked, differ) = differing(min_shift, depth, step);
        let which = if step == 1 { "all regions".to_owned() } else { format!("regions whose beginnings and ends are {step} apart") };
        println!("min_shift {min_shift}, depth {depth}, {which}: {asked} asked, {differ} differ");
        failed += u32::from(differ > 0);
    }
    println!("{} passed, {failed} failed", 4 - failed);
    std::process::exit((failed > 0).into());
}
