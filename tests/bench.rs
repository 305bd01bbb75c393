// Times each public call of the port beside the original's, on the same inputs in one process, one call that is not inlined on either side: the original
// through a pointer that the compiler can't see through, the port's C function from its binding. Buffers that the port is lent are made once and not cleared.
#[allow(dead_code)]
#[path = "../bindings/rust/src/lib.rs"]
mod port;
#[path = "judge/md.rs"]
mod plain_md;

use original::{bin, cigar, fields::RawRecordView, overlap};
use std::hint::black_box;

const INPUTS: usize = 64;

struct Random(u64);

impl Random {
    fn below(&mut self, n: u64) -> u64 {
        self.0 = self.0.wrapping_mul(6364136223846793005).wrapping_add(1442695040888963407);
        (self.0 >> 33) % n
    }
}

/// A valid mapped list: M and, between them, I, D or N; from five ops on with clips at both ends.
fn list(random: &mut Random, n: usize) -> Vec<u32> {
    let mut ops = Vec::new();
    for i in 0..n {
        let clip = n >= 5 && (i == 0 || i + 1 == n);
        let code = if clip { 4 } else if i % 2 == 1 { 1 + random.below(3) as u32 } else { 0 };
        ops.push(((1 + random.below(150) as u32) << 4) | code);
    }
    ops
}

/// An amount to clip of such a list: 160, or the M and I bases where there are fewer.
fn amount(ops: &[u32]) -> usize {
    ops.iter().filter(|&&op| op & 15 < 2).map(|&op| op as usize >> 4).sum::<usize>().min(160)
}

fn record(random: &mut Random, ops: &[u32], reverse: bool, mate: i32) -> Vec<u8> {
    let mut r = vec![0u8; 32];
    r[4..8].copy_from_slice(&(1000 + random.below(100000) as i32).to_le_bytes());
    r[8] = 9;
    r[12..14].copy_from_slice(&(ops.len() as u16).to_le_bytes());
    r[14..16].copy_from_slice(&(if reverse { 0x11u16 } else { 0x21 }).to_le_bytes());
    r[24..28].copy_from_slice(&mate.to_le_bytes());
    r[28..32].copy_from_slice(&300i32.to_le_bytes());
    r.extend_from_slice(b"read/123\0");
    r.extend(ops.iter().flat_map(|o| o.to_le_bytes()));
    r
}

#[repr(C)]
struct Timespec {
    seconds: i64,
    nanoseconds: i64,
}

extern "C" {
    fn clock_gettime(clock: i32, time: *mut Timespec) -> i32;
}

/// Nanoseconds that this thread has run, by Linux's CLOCK_THREAD_CPUTIME_ID: what else the machine does in between doesn't count.
fn thread_time() -> f64 {
    let mut time = Timespec { seconds: 0, nanoseconds: 0 };
    assert_eq!(unsafe { clock_gettime(3, &mut time) }, 0);
    time.seconds as f64 * 1e9 + time.nanoseconds as f64
}

/// Nanoseconds a call of one run.
fn time(calls: usize, run: &mut impl FnMut(usize)) -> f64 {
    let start = thread_time();
    for i in 0..calls {
        run(i % INPUTS);
    }
    (thread_time() - start) / calls as f64
}

/// A line of the output: of each side the median of three times, each the best of four runs, the sides in turns.
fn row(name: &str, n: usize, note: &str, mut original: impl FnMut(usize), mut port: impl FnMut(usize)) {
    let calls = (2_000_000 / (n + 20)).max(50);
    let (mut rust, mut own) = ([f64::MAX; 3], [f64::MAX; 3]);
    for turn in 0..12 {
        let best = |times: &mut [f64; 3], time: f64| times[turn / 4] = times[turn / 4].min(time);
        best(&mut rust, time(calls, &mut original));
        best(&mut own, time(calls, &mut port));
    }
    rust.sort_by(f64::total_cmp);
    own.sort_by(f64::total_cmp);
    println!("{name}\t{n}\t{:.2}\t{:.2}\t{note}", rust[1], own[1]);
}

macro_rules! pair {
    ($name:expr, $n:expr, $note:expr, $original:expr => $t:ty, $port:expr => $u:ty, |$i:ident, $f:ident| $call:expr, |$j:ident, $g:ident| $own:expr) => {{
        let $f: $t = black_box($original);
        let $g: $u = $port;
        row($name, $n, $note, |$i| { black_box($call); }, |$j| { let _ = black_box($own); });
    }};
}

/// Blocks, of which the original has none: end, sizes and starts in one pass, as a plain Rust program might have them.
fn plain_blocks(start: i32, ops: &[u32]) -> Option<(i32, Vec<u32>, Vec<u32>)> {
    let (mut sizes, mut starts, mut at, mut size) = (Vec::new(), Vec::new(), 0u32, 0u32);
    for &op in ops {
        match op & 15 {
            3 => {
                if size > 0 {
                    sizes.push(size);
                    starts.push(at);
                } else if sizes.is_empty() {
                    return None;
                }
                (at, size) = (at.checked_add(size)?.checked_add(op >> 4)?, 0);
            }
            0 | 2 | 7 | 8 => size = size.checked_add(op >> 4)?,
            _ => {}
        }
    }
    if size == 0 {
        return None;
    }
    sizes.push(size);
    starts.push(at);
    Some((start.checked_add_unsigned(at.checked_add(size)?)?, sizes, starts))
}

/// An MD text for a list, with a mismatch at one base in fifty.
fn md_text(random: &mut Random, ops: &[u32]) -> Vec<u8> {
    let (mut text, mut matches) = (Vec::new(), 0u32);
    for &op in ops {
        if op & 15 == 0 {
            for _ in 0..op >> 4 {
                if random.below(50) == 0 {
                    text.extend(format!("{matches}{}", ['A', 'C', 'G', 'T'][random.below(4) as usize]).bytes());
                    matches = 0;
                } else {
                    matches += 1;
                }
            }
        } else if op & 15 == 2 {
            text.extend(format!("{matches}^").bytes());
            text.extend((0..op >> 4).map(|_| b"ACGT"[random.below(4) as usize]));
            matches = 0;
        }
    }
    text.extend(matches.to_string().bytes());
    text
}

fn lists(n: usize, random: &mut Random) {
    let l: Vec<Vec<u32>> = (0..INPUTS).map(|_| list(random, n)).collect();
    let mut out = vec![0u32; n + 2];
    pair!("reference_length_from_cigar", n, "", cigar::reference_length_from_cigar => fn(&[u32]) -> i32, port::reference_length_from_cigar => fn(&[u32]) -> Result<i32, port::Refusal>, |i, f| f(&l[i]), |i, g| g(&l[i]));
    pair!("query_length_from_cigar", n, "", cigar::query_length_from_cigar => fn(&[u32]) -> usize, port::query_length_from_cigar => fn(&[u32]) -> Result<usize, port::Refusal>, |i, f| f(&l[i]), |i, g| g(&l[i]));
    pair!("saturating_reference_length", n, "", overlap::saturating_reference_length => fn(&[u32]) -> i32, port::saturating_reference_length => fn(&[u32]) -> Result<i32, port::Refusal>, |i, f| f(&l[i]), |i, g| g(&l[i]));
    pair!("is_valid_mapped_cigar", n, "", overlap::reach::is_valid_mapped_cigar => fn(&[u32]) -> bool, port::is_valid_mapped_cigar => fn(&[u32]) -> Result<bool, port::Refusal>, |i, f| f(&l[i]), |i, g| g(&l[i]));
    let far = 1000 + 40 * n;
    pair!("read_pos_at_ref_pos_raw", n, "", cigar::read_pos_at_ref_pos_raw => fn(&[u32], usize, usize, bool) -> Option<usize>, port::read_pos_at_ref_pos_raw => fn(&[u32], usize, usize, bool) -> Result<(Option<usize>, usize), port::Refusal>, |i, f| f(&l[i], 1000, far, false), |i, g| g(&l[i], 1000, far, false));
    let amounts: Vec<usize> = l.iter().map(|x| amount(x)).collect();
    pair!("clip_cigar_start_raw", n, "the Rust allocates", cigar::clip_cigar_ops_raw => fn(&[u32], usize, bool) -> (Vec<u32>, usize), port::clip_cigar_start_raw => fn(&[u32], usize, &mut [u32]) -> Result<(usize, usize), port::Refusal>, |i, f| f(&l[i], amounts[i], true), |i, g| g(&l[i], amounts[i], &mut out));
    pair!("clip_cigar_end_raw", n, "the Rust allocates", cigar::clip_cigar_ops_raw => fn(&[u32], usize, bool) -> (Vec<u32>, usize), port::clip_cigar_end_raw => fn(&[u32], usize, &mut [u32]) -> Result<usize, port::Refusal>, |i, f| f(&l[i], amounts[i], false), |i, g| g(&l[i], amounts[i], &mut out));
    let mut starts = vec![0u32; n + 2];
    pair!("bed_blocks", n, "beside a plain Rust program, which allocates", plain_blocks => fn(i32, &[u32]) -> Option<(i32, Vec<u32>, Vec<u32>)>, port::bed_blocks => fn(i32, &[u32], &mut [u32], &mut [u32]) -> Result<port::BedBlocks, port::Refusal>, |i, f| f(1000, &l[i]), |i, g| g(1000, &l[i], &mut out, &mut starts));
    let md: Vec<Vec<u8>> = l.iter().map(|ops| md_text(random, ops)).collect();
    let mut runs = vec![0u32; n + md.iter().map(Vec::len).max().unwrap_or(0)];
    pair!("match_ops_from_md", n, "beside the tests' plain Rust program, which allocates", plain_md::told => fn(&[u32], &[u8]) -> Result<Vec<u32>, u8>, port::match_ops_from_md => fn(&[u32], &[u8], &mut [u32]) -> Result<usize, port::Refusal>, |i, f| f(&l[i], &md[i]), |i, g| g(&l[i], &md[i], &mut runs));
    let mate = |i: usize| &l[(i + 1) % INPUTS];
    pair!("bases_extending_past_mate_ops", n, "", overlap::bases_extending_past_mate_ops => fn(bool, i32, &[u32], i32, &[u32]) -> usize, port::bases_extending_past_mate_ops => fn(bool, i32, &[u32], i32, &[u32]) -> Result<usize, port::Refusal>, |i, f| f(false, 1000, &l[i], 1010, mate(i)), |i, g| g(false, 1000, &l[i], 1010, mate(i)));
}

fn records(n: usize, random: &mut Random) {
    let l: Vec<Vec<u32>> = (0..INPUTS).map(|_| list(random, n)).collect();
    let r: Vec<Vec<u8>> = l.iter().map(|x| record(random, x, false, 2000)).collect();
    let b: Vec<Vec<u8>> = l.iter().map(|x| record(random, x, true, 500)).collect();
    let (mut out, mut text) = (vec![0u32; n + 2], vec![0u8; 12 * n]);
    let mut string = Vec::new();
    pair!("get_cigar_ops", n, "the Rust allocates", cigar::get_cigar_ops => fn(&[u8]) -> Vec<u32>, port::get_cigar_ops => fn(&[u8], &mut [u32]) -> Result<usize, port::Refusal>, |i, f| f(&r[i]), |i, g| g(&r[i], &mut out));
    pair!("cigar_raw_bytes", n, "", |x: &[u8]| RawRecordView::new(x).cigar_raw_bytes().len() => fn(&[u8]) -> usize, port::cigar_raw_bytes => fn(&[u8]) -> Result<&[u8], port::Refusal>, |i, f| f(&r[i]), |i, g| g(&r[i]));
    pair!("reference_length_from_raw_bam", n, "", cigar::reference_length_from_raw_bam => fn(&[u8]) -> i32, port::reference_length_from_raw_bam => fn(&[u8]) -> Result<i32, port::Refusal>, |i, f| f(&r[i]), |i, g| g(&r[i]));
    pair!("reference_length_from_raw_bam_checked", n, "", cigar::reference_length_from_raw_bam_checked => fn(&[u8]) -> Option<i32>, port::reference_length_from_raw_bam_checked => fn(&[u8]) -> Result<i32, port::Refusal>, |i, f| f(&r[i]), |i, g| g(&r[i]));
    pair!("query_length", n, "", |x: &[u8]| RawRecordView::new(x).query_length() => fn(&[u8]) -> usize, port::query_length => fn(&[u8]) -> Result<usize, port::Refusal>, |i, f| f(&r[i]), |i, g| g(&r[i]));
    pair!("cigar_lengths", n, "", |x: &[u8]| RawRecordView::new(x).cigar_lengths() => fn(&[u8]) -> (i32, usize), port::cigar_lengths => fn(&[u8]) -> Result<port::RecordLengths, port::Refusal>, |i, f| f(&r[i]), |i, g| g(&r[i]));
    pair!("cigar_to_bytes_into", n, "the Rust's buffer is kept", cigar::cigar_to_bytes_into => fn(&mut Vec<u8>, &[u8]), port::cigar_to_bytes_into => fn(&[u8], &mut [u8]) -> Result<usize, port::Refusal>, |i, f| f(&mut string, &r[i]), |i, g| g(&r[i], &mut text));
    pair!("cigar_to_string_from_raw", n, "the Rust allocates", cigar::cigar_to_string_from_raw => fn(&[u8]) -> String, port::cigar_to_bytes_into => fn(&[u8], &mut [u8]) -> Result<usize, port::Refusal>, |i, f| f(&r[i]), |i, g| g(&r[i], &mut text));
    pair!("unclipped_5prime_from_raw_bam, forward", n, "", cigar::unclipped_5prime_from_raw_bam => fn(&[u8]) -> i32, port::unclipped_5prime_from_raw_bam => fn(&[u8]) -> Result<port::Unclipped, port::Refusal>, |i, f| f(&r[i]), |i, g| g(&r[i]));
    pair!("unclipped_5prime_from_raw_bam, reverse", n, "", cigar::unclipped_5prime_from_raw_bam => fn(&[u8]) -> i32, port::unclipped_5prime_from_raw_bam => fn(&[u8]) -> Result<port::Unclipped, port::Refusal>, |i, f| f(&b[i]), |i, g| g(&b[i]));
    for (name, reverse) in [("unclipped_5prime_raw, forward", false), ("unclipped_5prime_raw, reverse", true)] {
        pair!(name, n, "", cigar::unclipped_5prime_raw => fn(&[u8], i32, bool) -> i32, port::unclipped_5prime_raw => fn(&[u8], i32, bool) -> Result<i32, port::Refusal>, |i, f| f(&r[i], 1000, reverse), |i, g| g(&r[i], 1000, reverse));
    }
    pair!("alignment_start_from_raw", n, "", cigar::alignment_start_from_raw => fn(&[u8]) -> Option<usize>, port::alignment_start_from_raw => fn(&[u8]) -> Result<Option<usize>, port::Refusal>, |i, f| f(&r[i]), |i, g| g(&r[i]));
    pair!("alignment_end_from_raw", n, "", cigar::alignment_end_from_raw => fn(&[u8]) -> Option<usize>, port::alignment_end_from_raw => fn(&[u8]) -> Result<Option<usize>, port::Refusal>, |i, f| f(&r[i]), |i, g| g(&r[i]));
    pair!("bin_from_raw_bam", n, "", bin::bin_from_raw_bam => fn(&[u8]) -> u16, port::bin_from_raw_bam => fn(&[u8]) -> Result<u16, port::Refusal>, |i, f| f(&r[i]), |i, g| g(&r[i]));
    let amounts: Vec<usize> = l.iter().map(|x| amount(x)).collect();
    pair!("clip_cigar_start", n, "the Rust allocates", |x: &[u8], amount, at| RawRecordView::new(x).clip_cigar_ops(amount, at) => fn(&[u8], usize, bool) -> (Vec<u32>, usize), port::clip_cigar_start => fn(&[u8], usize, &mut [u32]) -> Result<(usize, usize), port::Refusal>, |i, f| f(&r[i], amounts[i], true), |i, g| g(&r[i], amounts[i], &mut out));
    pair!("clip_cigar_end", n, "the Rust allocates", |x: &[u8], amount, at| RawRecordView::new(x).clip_cigar_ops(amount, at) => fn(&[u8], usize, bool) -> (Vec<u32>, usize), port::clip_cigar_end => fn(&[u8], usize, &mut [u32]) -> Result<usize, port::Refusal>, |i, f| f(&r[i], amounts[i], false), |i, g| g(&r[i], amounts[i], &mut out));
    pair!("is_mapped_opposite_strand_pair_raw", n, "", overlap::is_mapped_opposite_strand_pair_raw => fn(&[u8]) -> bool, port::is_mapped_opposite_strand_pair_raw => fn(&[u8]) -> Result<bool, port::Refusal>, |i, f| f(&r[i]), |i, g| g(&r[i]));
    pair!("is_fr_pair_raw", n, "", overlap::reach::is_fr_pair_raw => fn(&[u8]) -> bool, port::is_fr_pair_raw => fn(&[u8]) -> Result<bool, port::Refusal>, |i, f| f(&r[i]), |i, g| g(&r[i]));
    pair!("is_primary_fr_pair_raw", n, "", overlap::is_primary_fr_pair_raw => fn(&[u8], &[u8]) -> bool, port::is_primary_fr_pair_raw => fn(&[u8], &[u8]) -> Result<bool, port::Refusal>, |i, f| f(&r[i], &b[i]), |i, g| g(&r[i], &b[i]));
    pair!("num_bases_extending_past_mate_cigar_raw", n, "the Rust allocates", overlap::num_bases_extending_past_mate_cigar_raw => fn(&[u8], &[u32]) -> usize, port::num_bases_extending_past_mate_cigar_raw => fn(&[u8], &[u32]) -> Result<usize, port::Refusal>, |i, f| f(&r[i], &l[i]), |i, g| g(&r[i], &l[i]));
    pair!("num_bases_extending_past_mate_vs_mate_raw", n, "the Rust allocates", overlap::num_bases_extending_past_mate_vs_mate_raw => fn(&[u8], &[u8]) -> usize, port::num_bases_extending_past_mate_vs_mate_raw => fn(&[u8], &[u8]) -> Result<usize, port::Refusal>, |i, f| f(&r[i], &b[i]), |i, g| g(&r[i], &b[i]));
}

fn texts(n: usize, random: &mut Random) {
    let t: Vec<String> = (0..INPUTS)
        .map(|_| list(random, n).iter().map(|o| format!("{}{}", o >> 4, port::CigarOp::from_raw(*o).kind().as_char())).collect())
        .collect();
    let mut out = vec![0u32; n + 2];
    pair!("parse_cigar_string_ops", n, "the Rust allocates", overlap::parse_cigar_string_ops => fn(&str) -> Option<Vec<u32>>, port::parse_cigar_string_ops => fn(&[u8], &mut [u32]) -> Result<usize, port::Refusal>, |i, f| f(&t[i]), |i, g| g(t[i].as_bytes(), &mut out));
    for reverse in [false, true] {
        let end = if reverse { "reverse" } else { "forward" };
        pair!(&format!("mate_unclipped_5prime, {end}"), n, "", cigar::mate_unclipped_5prime => fn(i32, bool, &[u8]) -> i32, port::mate_unclipped_5prime => fn(i32, bool, &[u8]) -> i32, |i, f| f(1000, reverse, t[i].as_bytes()), |i, g| g(1000, reverse, t[i].as_bytes()));
        pair!(&format!("mate_unclipped_5prime_1based, {end}"), n, "", cigar::mate_unclipped_5prime_1based => fn(i32, bool, &[u8]) -> i32, port::mate_unclipped_5prime_1based => fn(i32, bool, &[u8]) -> i32, |i, f| f(1000, reverse, t[i].as_bytes()), |i, g| g(1000, reverse, t[i].as_bytes()));
    }
    let r: Vec<Vec<u8>> = (0..INPUTS).map(|_| { let ops = list(random, n); record(random, &ops, false, 2000) }).collect();
    pair!("num_bases_extending_past_mate_text_raw", n, "the Rust allocates", |x: &[u8], y: &str| overlap::parse_cigar_string_ops(y).map(|ops| overlap::num_bases_extending_past_mate_cigar_raw(x, &ops)) => fn(&[u8], &str) -> Option<usize>, port::num_bases_extending_past_mate_text_raw => fn(&[u8], &[u8], &mut [u32]) -> Result<(usize, usize), port::Refusal>, |i, f| f(&r[i], &t[i]), |i, g| g(&r[i], t[i].as_bytes(), &mut out));
}

macro_rules! fields {
    ($r:expr, $($name:ident: $t:ty),*) => {
        $(pair!(stringify!($name), 1, "", |x: &[u8]| RawRecordView::new(x).$name() => fn(&[u8]) -> $t, port::$name => fn(&[u8]) -> Result<$t, port::Refusal>, |i, f| f(&$r[i]), |i, g| g(&$r[i]));)*
    };
}

fn single(random: &mut Random) {
    let r: Vec<Vec<u8>> = (0..INPUTS).map(|_| record(random, &[480], false, 2000)).collect();
    let (mut theirs, mut own) = (r.clone(), r.clone());
    fields!(r, ref_id: i32, pos: i32, l_read_name: u8, bin: u16, n_cigar_op: u16, flags: u16, l_seq: u32, mate_ref_id: i32, mate_pos: i32, template_length: i32);
    pair!("set_bin_from_raw_bam", 1, "", bin::set_bin_from_raw_bam => fn(&mut [u8]), port::set_bin_from_raw_bam => fn(&mut [u8]) -> Result<u16, port::Refusal>, |i, f| f(&mut theirs[i]), |i, g| g(&mut own[i]));
    pair!("reg2bin", 1, "", bin::reg2bin => fn(i32, i32) -> u16, port::reg2bin => fn(i32, i32) -> Result<u16, port::Refusal>, |i, f| f(i as i32 * 1000, i as i32 * 3000 + 7), |i, g| g(i as i32 * 1000, i as i32 * 3000 + 7));
    pair!("consumes_ref", 1, "", cigar::consumes_ref => fn(u32) -> bool, port::consumes_ref => fn(u32) -> bool, |i, f| f(i as u32), |i, g| g(i as u32));
    pair!("consumes_query", 1, "", cigar::consumes_query => fn(u32) -> bool, port::consumes_query => fn(u32) -> bool, |i, f| f(i as u32), |i, g| g(i as u32));
    pair!("consumes_read", 1, "", cigar::consumes_read => fn(u32) -> bool, port::consumes_read => fn(u32) -> bool, |i, f| f(i as u32), |i, g| g(i as u32));
    let (kinds, own): (Vec<_>, Vec<_>) = (0..9).map(|k| (cigar::CigarKind::from_op_type(k).unwrap(), port::CigarKind::from_op_type(k).unwrap())).unzip();
    pair!("as_char", 1, "", cigar::CigarKind::as_char => fn(cigar::CigarKind) -> char, port::CigarKind::as_char => fn(port::CigarKind) -> char, |i, f| f(kinds[i % 9]), |i, g| g(own[i % 9]));
    pair!("from_op_type", 1, "", cigar::CigarKind::from_op_type => fn(u32) -> Option<cigar::CigarKind>, port::CigarKind::from_op_type => fn(u32) -> Option<port::CigarKind>, |i, f| f(i as u32), |i, g| g(i as u32));
    pair!("op_consumes_query", 1, "", |x| cigar::CigarOp::from_raw(x).consumes_query() => fn(u32) -> bool, |x| port::CigarOp::from_raw(x).consumes_query() => fn(u32) -> bool, |i, f| f(i as u32), |i, g| g(i as u32));
    pair!("op_consumes_ref", 1, "", |x| cigar::CigarOp::from_raw(x).consumes_ref() => fn(u32) -> bool, |x| port::CigarOp::from_raw(x).consumes_ref() => fn(u32) -> bool, |i, f| f(i as u32), |i, g| g(i as u32));
    pair!("op_kind", 1, "", |x| cigar::CigarOp::from_raw(x).kind() => fn(u32) -> cigar::CigarKind, |x| port::CigarOp::from_raw(x).kind() => fn(u32) -> port::CigarKind, |i, f| f(i as u32 % 9), |i, g| g(i as u32 % 9));
    pair!("op_len", 1, "", |x| cigar::CigarOp::from_raw(x).len() => fn(u32) -> u32, |x| port::CigarOp::from_raw(x).len() => fn(u32) -> u32, |i, f| f(i as u32), |i, g| g(i as u32));
    pair!("op_new", 1, "", |x| cigar::CigarOp::new(cigar::CigarKind::Match, x) => fn(u32) -> cigar::CigarOp, |x| port::CigarOp::new(port::CigarKind::Match, x) => fn(u32) -> Result<port::CigarOp, port::Refusal>, |i, f| f(i as u32 + 1), |i, g| g(i as u32 + 1));
}

#[repr(C)]
struct Told {
    refusal: u32,
    value: u64,
}

/// The original behind the port's border: a C function that returns the number and the value, which its caller makes a `Result` of. Where the port takes as long
/// as this, the rest of its time is the border's.
macro_rules! behind {
    ($n:expr, $inputs:expr, $name:literal, $t:ty, $original:path) => {{
        #[inline(never)]
        extern "C" fn told(at: *const $t, len: usize) -> Told {
            Told { refusal: 0, value: $original(unsafe { std::slice::from_raw_parts(at, len) }) as u64 }
        }
        let (f, g) = (black_box($original as fn(&[$t]) -> _), black_box(told as extern "C" fn(*const $t, usize) -> Told));
        row($name, $n, "the Rust behind the border", |i| { black_box(f(&$inputs[i])); }, |i| {
            let told = g($inputs[i].as_ptr(), $inputs[i].len());
            let _ = black_box(if told.refusal == 0 { Ok(told.value) } else { Err(told.refusal) });
        });
    }};
}

fn border(n: usize, random: &mut Random) {
    let l: Vec<Vec<u32>> = (0..INPUTS).map(|_| list(random, n)).collect();
    let r: Vec<Vec<u8>> = l.iter().map(|x| record(random, x, false, 2000)).collect();
    behind!(n, l, "reference_length_from_cigar", u32, cigar::reference_length_from_cigar);
    behind!(n, l, "query_length_from_cigar", u32, cigar::query_length_from_cigar);
    behind!(n, l, "is_valid_mapped_cigar", u32, overlap::reach::is_valid_mapped_cigar);
    behind!(n, r, "unclipped_5prime_from_raw_bam", u8, cigar::unclipped_5prime_from_raw_bam);
    behind!(n, r, "bin_from_raw_bam", u8, bin::bin_from_raw_bam);
}

/// Lists that are unlike today's: of one code, or of length 0 throughout.
fn plain(n: usize, name: &str, op: impl Fn(u32) -> u32, random: &mut Random) {
    let l: Vec<Vec<u32>> = (0..INPUTS).map(|_| (0..n).map(|_| op(1 + random.below(150) as u32)).collect()).collect();
    let mut out = vec![0u32; n + 2];
    let named = |call: &str| format!("{call}, {name}");
    pair!(&named("reference_length_from_cigar"), n, "further", cigar::reference_length_from_cigar => fn(&[u32]) -> i32, port::reference_length_from_cigar => fn(&[u32]) -> Result<i32, port::Refusal>, |i, f| f(&l[i]), |i, g| g(&l[i]));
    pair!(&named("query_length_from_cigar"), n, "further", cigar::query_length_from_cigar => fn(&[u32]) -> usize, port::query_length_from_cigar => fn(&[u32]) -> Result<usize, port::Refusal>, |i, f| f(&l[i]), |i, g| g(&l[i]));
    pair!(&named("is_valid_mapped_cigar"), n, "further", overlap::reach::is_valid_mapped_cigar => fn(&[u32]) -> bool, port::is_valid_mapped_cigar => fn(&[u32]) -> Result<bool, port::Refusal>, |i, f| f(&l[i]), |i, g| g(&l[i]));
    let far = 1000 + 40 * n;
    pair!(&named("read_pos_at_ref_pos_raw"), n, "further", cigar::read_pos_at_ref_pos_raw => fn(&[u32], usize, usize, bool) -> Option<usize>, port::read_pos_at_ref_pos_raw => fn(&[u32], usize, usize, bool) -> Result<(Option<usize>, usize), port::Refusal>, |i, f| f(&l[i], 1000, far, false), |i, g| g(&l[i], 1000, far, false));
    clips(n, name, &l, &mut out);
    let mate = |i: usize| &l[(i + 1) % INPUTS];
    pair!(&named("bases_extending_past_mate_ops"), n, "further", overlap::bases_extending_past_mate_ops => fn(bool, i32, &[u32], i32, &[u32]) -> usize, port::bases_extending_past_mate_ops => fn(bool, i32, &[u32], i32, &[u32]) -> Result<usize, port::Refusal>, |i, f| f(false, 1000, &l[i], 1010, mate(i)), |i, g| g(false, 1000, &l[i], 1010, mate(i)));
}

/// Where no op has bases of the read, 160 is beyond what can be clipped: the port refuses by 19, behind the last op, and the Rust answers.
fn clips(n: usize, name: &str, l: &[Vec<u32>], out: &mut [u32]) {
    pair!(&format!("clip_cigar_start_raw, {name}"), n, "further", cigar::clip_cigar_ops_raw => fn(&[u32], usize, bool) -> (Vec<u32>, usize), port::clip_cigar_start_raw => fn(&[u32], usize, &mut [u32]) -> Result<(usize, usize), port::Refusal>, |i, f| f(&l[i], 160, true), |i, g| g(&l[i], 160, out));
    pair!(&format!("clip_cigar_end_raw, {name}"), n, "further", cigar::clip_cigar_ops_raw => fn(&[u32], usize, bool) -> (Vec<u32>, usize), port::clip_cigar_end_raw => fn(&[u32], usize, &mut [u32]) -> Result<usize, port::Refusal>, |i, f| f(&l[i], 160, false), |i, g| g(&l[i], 160, out));
}

/// Lists at which one side stops early: 2^28 is reached at the last op, H stands second, 2^31 is passed by the first nine ops.
fn early(n: usize, random: &mut Random) {
    let mut out = vec![0u32; n + 2];
    let some: Vec<Vec<u32>> = (0..INPUTS).map(|_| list(random, n)).collect();
    let with = |at: usize, op: u32| some.iter().map(|x| { let mut y = x.clone(); y[at] = op; y }).collect::<Vec<_>>();
    clips(n, "2^28 at the last op", &with(n - 1, 268435455 << 4), &mut out);
    let (broken, r) = (with(1, 5 << 4 | 5), some.iter().map(|x| record(random, x, false, 2000)).collect::<Vec<_>>());
    pair!("is_valid_mapped_cigar, H second", n, "further", overlap::reach::is_valid_mapped_cigar => fn(&[u32]) -> bool, port::is_valid_mapped_cigar => fn(&[u32]) -> Result<bool, port::Refusal>, |i, f| f(&broken[i]), |i, g| g(&broken[i]));
    pair!("num_bases_extending_past_mate_cigar_raw, H second", n, "further", overlap::num_bases_extending_past_mate_cigar_raw => fn(&[u8], &[u32]) -> usize, port::num_bases_extending_past_mate_cigar_raw => fn(&[u8], &[u32]) -> Result<usize, port::Refusal>, |i, f| f(&r[i], &broken[i]), |i, g| g(&r[i], &broken[i]));
    let past: Vec<Vec<u8>> = some.iter().map(|x| { let mut y = x.clone(); y[..9].fill(268435455 << 4); record(random, &y, false, 2000) }).collect();
    pair!("reference_length_from_raw_bam_checked, past 2^31", n, "further", cigar::reference_length_from_raw_bam_checked => fn(&[u8]) -> Option<i32>, port::reference_length_from_raw_bam_checked => fn(&[u8]) -> Result<i32, port::Refusal>, |i, f| f(&past[i]), |i, g| g(&past[i]));
}

/// Text whose next byte the processor can foresee: one op again and again.
fn foreseen(n: usize, op: &str) {
    let t: Vec<String> = (0..INPUTS).map(|_| op.repeat(n)).collect();
    let mut out = vec![0u32; n + 2];
    pair!(&format!("parse_cigar_string_ops, {op} repeated"), n, "further", overlap::parse_cigar_string_ops => fn(&str) -> Option<Vec<u32>>, port::parse_cigar_string_ops => fn(&[u8], &mut [u32]) -> Result<usize, port::Refusal>, |i, f| f(&t[i]), |i, g| g(t[i].as_bytes(), &mut out));
    pair!(&format!("mate_unclipped_5prime, reverse, {op} repeated"), n, "further", cigar::mate_unclipped_5prime => fn(i32, bool, &[u8]) -> i32, port::mate_unclipped_5prime => fn(i32, bool, &[u8]) -> i32, |i, f| f(1000, true, t[i].as_bytes()), |i, g| g(1000, true, t[i].as_bytes()));
}

/// A record whose ops are a placeholder, with the list in CG behind two other tags.
fn tagged(random: &mut Random, ops: &[u32]) -> Vec<u8> {
    let mut r = record(random, &[150 << 4 | 4, 9999 << 4 | 3], false, 2000);
    r[16..20].copy_from_slice(&150u32.to_le_bytes());
    r.extend((0..75 + 150).map(|i| i as u8));
    r.extend_from_slice(b"NMC\x05RGZgroup\0CGBI");
    r.extend_from_slice(&(ops.len() as u32).to_le_bytes());
    r.extend(ops.iter().flat_map(|o| o.to_le_bytes()));
    r
}

/// The true lengths of a record, beside the reference and the query length of the same ops, lent, and beside the reference length alone; and its true list clipped by 7, beside the same
/// ops lent: both are the port's.
fn long(n: usize, random: &mut Random) {
    const FEW: usize = 4;
    let l: Vec<Vec<u32>> = (0..FEW).map(|_| list(random, n)).collect();
    let r: Vec<Vec<u8>> = l.iter().map(|x| tagged(random, x)).collect();
    let sums = |ops: &[u32]| (port::long_reference_length_from_cigar(ops), port::long_query_length_from_cigar(ops));
    let lengths = |i: usize| { let _ = black_box(port::true_cigar_lengths(&r[i % FEW])); };
    row("true_cigar_lengths", n, "a lent list", |i| { let _ = black_box(sums(&l[i % FEW])); }, lengths);
    row("true_cigar_lengths, beside the reference length alone", n, "a lent list", |i| { let _ = black_box(port::long_reference_length_from_cigar(&l[i % FEW])); }, lengths);
    let (mut out, mut other) = (vec![0; n + 1], vec![0; n + 1]);
    row("true_clip_cigar_start", n, "a lent list", |i| { let _ = black_box(port::long_clip_cigar_start_raw(&l[i % FEW], 7, &mut out)); }, |i| { let _ = black_box(port::true_clip_cigar_start(&r[i % FEW], 7, &mut other)); });
}

/// A record with its bases, qualities and two tags, whose ops are M with a D between each two of them.
fn whole(random: &mut Random, ops: usize, bases: usize) -> Vec<u8> {
    let each = bases / ops.div_ceil(2);
    let list: Vec<u32> = (0..ops).map(|i| if i % 2 == 1 { 1 << 4 | 2 } else if i + 1 == ops { ((bases - each * (ops / 2)) as u32) << 4 } else { (each as u32) << 4 }).collect();
    let mut r = record(random, &list, false, 2000);
    r[16..20].copy_from_slice(&(bases as u32).to_le_bytes());
    r.extend((0..bases.div_ceil(2) + bases).map(|_| random.below(256) as u8));
    r.extend_from_slice(b"NMC\x05RGZgroup\0");
    r
}

/// A clipped record, beside a copy of the same record whose bin is computed, by memcpy and by the port's own call; even and odd numbers of bases lost, at both ends. A received record that is accepted,
/// beside writing it and comparing the two.
fn written(bases: usize, every: usize, random: &mut Random) {
    const FEW: usize = 16;
    let ops = (bases / every).max(1) | 1;
    let r: Vec<Vec<u8>> = (0..FEW).map(|_| whole(random, ops, bases)).collect();
    let (mut copy, mut out) = (vec![0u8; r[0].len()], vec![0u8; r[0].len() + 8]);
    let kind = if every > bases { "1 op".to_owned() } else { format!("an op for {every} bases") };
    for (parity, lost) in [("even", bases / 100 * 2 + 4), ("odd", bases / 100 * 2 + 5)] {
        let mut beside = |call: &str, clip: &mut dyn FnMut(&[u8])| {
            let copied = |i: usize| { copy.copy_from_slice(&r[i % FEW]); let _ = black_box(port::set_bin_from_raw_bam(&mut copy)); };
            row(&format!("{call}, {parity}, {kind}"), bases, "a copy and its bin", copied, |i| clip(&r[i % FEW]));
        };
        beside("clip_record_start", &mut |x| { black_box(port::clip_record_start(x, lost, &mut out)).unwrap(); });
        beside("clip_record_end", &mut |x| { black_box(port::clip_record_end(x, lost, &mut out)).unwrap(); });
        let received: Vec<Vec<u8>> = r.iter().map(|x| { let (n, _) = port::clip_record_start(x, lost, &mut out).unwrap(); out[..n].to_vec() }).collect();
        let compared = |i: usize| { let (n, _) = port::clip_record_start(&r[i % FEW], lost, &mut out).unwrap(); black_box(out[..n] == received[i % FEW][..]); };
        row(&format!("check_clipped_start, {parity}, {kind}"), bases, "clip_record_start and memcmp", compared, |i| { black_box(port::check_clipped_start(&r[i % FEW], lost, &received[i % FEW])).unwrap(); });
    }
}

fn main() {
    // the first half second is not timed: the processor takes a while to run at its speed
    let began = thread_time();
    while thread_time() - began < 5e8 {}
    let random = &mut Random(7);
    for bases in [150, 1000, 100_000] {
        for every in [usize::MAX, 50, 10] {
            written(bases, every, random);
        }
    }
    for n in [10, 100, 10_000, 65_535, 1_000_000] {
        long(n, random);
    }
    if std::env::args().any(|word| word == "long") {
        return;
    }
    for n in [1, 3, 10, 100, 10_000] {
        lists(n, random);
        records(n, random);
        texts(n, random);
        border(n, random);
    }
    single(random);
    for n in [10, 100, 10_000, 65_535] {
        for op in ["1M", "100M", "1000M"] {
            foreseen(n, op);
        }
        plain(n, "all D", |length| length << 4 | 2, random);
        plain(n, "all N", |length| length << 4 | 3, random);
        plain(n, "code 15", |length| length << 4 | 15, random);
        plain(n, "length 0", |length| length % 2 * 2, random);
        early(n, random);
    }
}
