//! Every call of the protocol, answered by the original inside document 01's domain. The refusal that is due is computed first, by `rules`;
//! the original is then held to it: it has to stop exactly where 4, 7 or 10 is due, and nowhere else. Where document 02 parts from the original, its answer is folded;
//! a call that the original lacks is answered by a plain second program.

use crate::protocol::{FILL_BYTES, FILL_OPS, Reply, Said, Words, split};
use crate::rules::{self, MOST_LONG_OPS, MOST_OPS};
use crate::{bed, csi, md, receive, record, tags};
use original::cigar::{self, CigarKind, CigarOp};
use original::fields::{self, RawRecordView};
use original::{bin, overlap};
use std::panic::{self, AssertUnwindSafe};
use std::sync::atomic::{AtomicBool, Ordering::Relaxed};

type Call = fn(&mut Words) -> Option<Reply>;

/// What the original says when it stops where a refusal is due.
fn words_of(refusal: u8) -> &'static str {
    match refusal {
        7 => "invalid CIGAR op type",
        10 => "CIGAR op length",
        _ => "with overflow",
    }
}

static HELD: AtomicBool = AtomicBool::new(false);

/// Stops of the original are answers and print nothing; the judge's own are printed.
pub fn quiet_stops() {
    let usual = panic::take_hook();
    panic::set_hook(Box::new(move |stop| {
        if !HELD.load(Relaxed) {
            usual(stop);
        }
    }));
}

fn run<T>(original: impl FnOnce() -> T) -> std::thread::Result<T> {
    HELD.store(true, Relaxed);
    let result = panic::catch_unwind(AssertUnwindSafe(original));
    HELD.store(false, Relaxed);
    result
}

/// Runs the original, which has to stop if a refusal is due, and to answer if none is.
fn hold<T>(due: Option<u8>, original: impl FnOnce() -> T) -> Result<T, Said> {
    match (run(original), due) {
        (Ok(value), None) => Ok(value),
        (Ok(_), Some(n)) => Err(Said::Mismatch(format!("{n} is due, and the original answers"))),
        (Err(stop), due) => {
            let text = stop.downcast_ref::<String>().map(String::as_str).or(stop.downcast_ref::<&str>().copied()).unwrap_or("no words");
            Err(match due {
                Some(n) if text.contains(words_of(n)) => Said::Refusal(n),
                _ => Said::Mismatch(format!("{due:?} is due, and the original stops: {text}")),
            })
        }
    }
}

/// Where document 02 refuses what the original answers (item 7: it asks for the length of a damaged record and goes on with 0; item 12: it clips beyond what there is), the refusal
/// is due, whatever it says then; everywhere else the original decides.
fn fold<T>(asked: Option<u8>, answer: Result<T, Said>) -> Result<T, Said> {
    match (answer, asked) {
        (Err(Said::Mismatch(words)), _) => Err(Said::Mismatch(words)),
        (_, Some(n)) => Err(Said::Refusal(n)),
        (answer, None) => answer,
    }
}

/// The same of bin.rs and overlap.rs, of which it is known whether they asked for such a length: they have to, exactly where one is due.
fn hold_asking<T>(asked: Option<u8>, due: Option<u8>, original: impl FnOnce() -> T) -> Result<T, Said> {
    cigar::damaged_was_asked();
    let answer = hold(due, original);
    if cigar::damaged_was_asked() != asked.is_some() {
        return Err(Said::Mismatch(format!("{asked:?} is due of the length, and the original asks otherwise")));
    }
    fold(asked, answer)
}

fn said<T>(result: Result<T, Said>, values: impl FnOnce(T) -> Said) -> Said {
    result.map_or_else(|refusal| refusal, values)
}

fn one(value: impl Into<i64>) -> Said {
    Said::Values(vec![value.into()])
}

fn count(value: usize) -> i64 {
    i64::try_from(value).expect("an answer of the original is below 2^63")
}

fn some(value: Option<usize>) -> Said {
    value.map_or(Said::Nothing(Vec::new()), |v| Said::Values(vec![count(v)]))
}

fn alone(said: Said) -> Option<Reply> {
    Some(Reply { said, lent: Vec::new() })
}

fn bytes_as_list(bytes: &[u8]) -> Vec<u32> {
    bytes.iter().map(|&b| u32::from(b)).collect()
}

/// An answer into a lent output: 6 if it is longer; else its first places are filled.
fn lend(room: usize, fill: u32, result: Result<(Vec<u32>, Said), Said>) -> Option<Reply> {
    let mut out = vec![fill; room];
    let said = match result {
        Err(refusal) => refusal,
        Ok((list, _)) if list.len() > room => Said::Refusal(6),
        Ok((list, said)) => {
            out[..list.len()].copy_from_slice(&list);
            said
        }
    };
    Some(Reply { said, lent: vec![out] })
}

fn counted(list: Vec<u32>) -> (Vec<u32>, Said) {
    let written = count(list.len());
    (list, Said::Values(vec![written]))
}

/// A call on one record, refused by 1; `due` is the refusal after that at which the original has to stop.
fn of_record<T>(words: &mut Words, due: fn(&[u8]) -> Option<u8>, run: fn(&[u8]) -> T, values: fn(T) -> Said) -> Option<Reply> {
    let record = words.bytes()?;
    words.done()?;
    alone(match rules::too_short(&record) {
        Some(n) => Said::Refusal(n),
        None => said(hold(due(&record), || run(&record)), values),
    })
}

fn never(_: &[u8]) -> Option<u8> {
    None
}

type Due = fn(&[u8]) -> Option<u8>;

/// A call on one record that may ask for its length.
fn of_asked<T>(words: &mut Words, asked: Due, due: Due, run: fn(&[u8]) -> T, values: fn(T) -> Said) -> Option<Reply> {
    let record = words.bytes()?;
    words.done()?;
    alone(match rules::too_short(&record) {
        Some(n) => Said::Refusal(n),
        None => said(hold_asking(asked(&record), due(&record), || run(&record)), values),
    })
}

/// The alignment's end, which asks within cigar.rs: a length of 0 has none.
fn alignment_end_from_raw(words: &mut Words) -> Option<Reply> {
    let record = words.bytes()?;
    words.done()?;
    if let Some(n) = rules::too_short(&record) {
        return alone(Said::Refusal(n));
    }
    let asked = rules::asked_at_a_place(&record);
    let answer = hold(rules::alignment_end_overflows(&record), || cigar::alignment_end_from_raw(&record));
    alone(match (answer, asked) {
        (Ok(Some(end)), Some(n)) => Said::Mismatch(format!("{n} is due of the length, and the original finds the end {end}")),
        (answer, asked) => said(fold(asked, answer), some),
    })
}

/// A call on one list, refused by 3 above its limit.
fn of_list<T>(words: &mut Words, limit: usize, due: fn(&[u32]) -> Option<u8>, run: fn(&[u32]) -> T, values: fn(T) -> Said) -> Option<Reply> {
    let list = words.list()?;
    words.done()?;
    alone(match rules::more_than(limit, &list) {
        Some(n) => Said::Refusal(n),
        None => said(hold(due(&list), || run(&list)), values),
    })
}

/// A call on one number that refuses nothing.
fn of_number(words: &mut Words, run: fn(u32) -> Said) -> Option<Reply> {
    let number = words.u32()?;
    words.done()?;
    alone(said(hold(None, || run(number)), |said| said))
}

fn cigar_raw_bytes(words: &mut Words) -> Option<Reply> {
    let record = words.bytes()?;
    words.done()?;
    let part = match rules::too_short(&record) {
        Some(n) => Err(Said::Refusal(n)),
        None => hold(None, || bytes_as_list(RawRecordView::new(&record).cigar_raw_bytes())),
    };
    let lent = part.as_ref().map_or(Vec::new(), Vec::clone);
    Some(Reply { said: said(part, |_| Said::Values(Vec::new())), lent: vec![lent] })
}

fn get_cigar_ops(words: &mut Words) -> Option<Reply> {
    let (record, room) = (words.bytes()?, words.room()?);
    words.done()?;
    let answer = match rules::too_short(&record) {
        Some(n) => Err(Said::Refusal(n)),
        None => hold(None, || cigar::get_cigar_ops(&record)).map(counted),
    };
    lend(room, FILL_OPS, answer)
}

fn op_new(words: &mut Words) -> Option<Reply> {
    let (kind, length) = (words.u32()?, words.u32()?);
    words.done()?;
    let Some(kind) = CigarKind::from_op_type(kind) else {
        return alone(Said::Nothing(Vec::new()));
    };
    alone(said(hold(rules::bad_length(length), || CigarOp::new(kind, length).raw()), one))
}

/// The original's unchecked length answers 0 where the checked one refuses, also under 32 bytes: the checked one's refusal is due (document 02, item 7).
fn reference_length_from_raw_bam(words: &mut Words) -> Option<Reply> {
    let record = words.bytes()?;
    words.done()?;
    let due = rules::too_short(&record).or_else(|| rules::checked_length_refusal(&record));
    let answer = hold(None, || cigar::reference_length_from_raw_bam(&record));
    alone(match (answer, due) {
        (Ok(length), Some(n)) if length != 0 => Said::Mismatch(format!("0 is due for {n}, and the original answers {length}")),
        (answer, due) => said(fold(due, answer), one),
    })
}

/// The original answers `None` for 1, 2 and 4.
fn reference_length_from_raw_bam_checked(words: &mut Words) -> Option<Reply> {
    let record = words.bytes()?;
    words.done()?;
    let due = rules::too_short(&record).or_else(|| rules::checked_length_refusal(&record));
    let answer = hold(None, || cigar::reference_length_from_raw_bam_checked(&record));
    alone(match (answer, due) {
        (Ok(None), Some(n)) => Said::Refusal(n),
        (Ok(Some(length)), None) => one(length),
        (answer, due) => Said::Mismatch(format!("{due:?} is due, and the original gives {answer:?}")),
    })
}

/// The Rust's two lengths, and the clips that it has no call for.
fn lengths((view, clips): ((i32, usize), Vec<i64>)) -> Said {
    Said::Values([vec![view.0.into(), count(view.1)], clips].concat())
}

fn own_ops(record: &[u8]) -> Vec<u32> {
    rules::Record(record).ops().unwrap_or_default()
}

fn cigar_to_bytes_into(words: &mut Words) -> Option<Reply> {
    let (record, room) = (words.bytes()?, words.room()?);
    words.done()?;
    let print = || {
        let mut out = Vec::new();
        cigar::cigar_to_bytes_into(&mut out, &record);
        counted(bytes_as_list(&out))
    };
    let answer = match rules::too_short(&record) {
        Some(n) => Err(Said::Refusal(n)),
        None => hold(rules::bad_code(&own_ops(&record)), print),
    };
    lend(room, FILL_BYTES.into(), answer)
}

/// The original's strict reader on bytes; text that is not UTF-8 is refused like any unknown letter.
fn parse(text: &[u8]) -> Result<Option<Vec<u32>>, Said> {
    let due = rules::strict(text);
    let answer = hold(None, || std::str::from_utf8(text).ok().and_then(overlap::parse_cigar_string_ops))?;
    if answer != due {
        return Err(Said::Mismatch(format!("the text is due as {due:?}, and the original reads {answer:?}")));
    }
    Ok(answer)
}

fn parse_cigar_string_ops(words: &mut Words) -> Option<Reply> {
    let (text, room) = (words.bytes()?, words.room()?);
    words.done()?;
    let answer = parse(&text).and_then(|list| {
        let list = list.ok_or(Said::Refusal(5))?;
        rules::too_many(&list).map_or(Ok(counted(list)), |n| Err(Said::Refusal(n)))
    });
    lend(room, FILL_OPS, answer)
}

fn is_valid_mapped_cigar(words: &mut Words) -> Option<Reply> {
    let list = words.list()?;
    words.done()?;
    let due = rules::is_valid(&list);
    alone(match (rules::too_many(&list), hold(None, || overlap::reach::is_valid_mapped_cigar(&list))) {
        (Some(n), _) => Said::Refusal(n),
        (None, Ok(answer)) if answer != due => Said::Mismatch(format!("{due} is due, and the original answers {answer}")),
        (None, answer) => said(answer, one),
    })
}

fn of_mate_text(words: &mut Words, run: fn(i32, bool, &[u8]) -> i32) -> Option<Reply> {
    let (position, reverse, text) = (words.i32()?, words.flag()?, words.bytes()?);
    words.done()?;
    alone(said(hold(None, || run(position, reverse, &text)), one))
}

/// The original's number, out of the three answers of document 02, item 3, of which the input says which it is: unmapped has to be its 0, no ops its 2^31 - 1.
fn unclipped_5prime_from_raw_bam(words: &mut Words) -> Option<Reply> {
    let record = words.bytes()?;
    words.done()?;
    if let Some(n) = rules::too_short(&record) {
        return alone(Said::Refusal(n));
    }
    let answer = hold(rules::own_unclipped_overflows(&record), || cigar::unclipped_5prime_from_raw_bam(&record));
    alone(said(answer, |position| match rules::no_position(&record) {
        None => one(position),
        Some((word, number)) if number == position => Said::Word(word),
        Some((word, number)) => Said::Mismatch(format!("{word} is due, the original's {number}, and it answers {position}")),
    }))
}

fn unclipped_5prime_raw(words: &mut Words) -> Option<Reply> {
    let (record, position, reverse) = (words.bytes()?, words.i32()?, words.flag()?);
    words.done()?;
    alone(match rules::too_short(&record) {
        Some(n) => Said::Refusal(n),
        None => {
            let due = rules::unclipped_overflows(&record, position.into(), reverse);
            said(hold(due, || cigar::unclipped_5prime_raw(&record, position, reverse)), one)
        }
    })
}

/// Lookup in a list, refused by 3 above its limit.
fn look_up(words: &mut Words, limit: usize) -> Option<Reply> {
    let (list, start, position, last) = (words.list()?, words.u64()?, words.u64()?, words.flag()?);
    words.done()?;
    alone(match rules::more_than(limit, &list).or(rules::bad_start(start)) {
        Some(n) => Said::Refusal(n),
        None => {
            let examined = rules::examined(&list, start, position);
            let found = hold(None, || cigar::read_pos_at_ref_pos_raw(&list, start as usize, position as usize, last));
            said(found, |found| found.map_or(Said::Nothing(vec![examined]), |at| Said::Values(vec![count(at), examined])))
        }
    })
}

/// A clip at an end, past 3 (1 for a record) and 8: the list, and the count. The original has both ends in one call, and counts 0 at the end.
fn clip(beyond: Option<u8>, start: bool, original: impl FnOnce() -> (Vec<u32>, usize)) -> Result<(Vec<u32>, usize), Said> {
    match fold(beyond, hold(None, original))? {
        (_, lost) if !start && lost != 0 => Err(Said::Mismatch(format!("the original counts {lost} at the end"))),
        clipped => Ok(clipped),
    }
}

/// A list clipped, past 3 (1 for a record): 8, 19.
fn clip_list(list: &[u32], amount: u64, start: bool) -> Result<(Vec<u32>, Said), Said> {
    match rules::too_long(list) {
        Some(n) => Err(Said::Refusal(n)),
        None => clipped(rules::beyond(list, amount, start), start, || cigar::clip_cigar_ops_raw(list, amount as usize, start)),
    }
}

/// A lent list clipped, refused by 3 above its limit.
/// What is told of one: the count at the start alone.
fn told(written: usize, lost: usize, start: bool) -> Said {
    Said::Values(if start { vec![count(written), count(lost)] } else { vec![count(written)] })
}

fn clipped(beyond: Option<u8>, start: bool, original: impl FnOnce() -> (Vec<u32>, usize)) -> Result<(Vec<u32>, Said), Said> {
    let (list, lost) = clip(beyond, start, original)?;
    let values = told(list.len(), lost, start);
    Ok((list, values))
}

fn clip_raw(words: &mut Words, limit: usize, start: bool) -> Option<Reply> {
    let (list, amount, room) = (words.list()?, words.u64()?, words.room()?);
    words.done()?;
    lend(room, FILL_OPS, rules::more_than(limit, &list).map_or_else(|| clip_list(&list, amount, start), |n| Err(Said::Refusal(n))))
}

fn clip_record(words: &mut Words, start: bool) -> Option<Reply> {
    let (record, amount, room) = (words.bytes()?, words.u64()?, words.room()?);
    words.done()?;
    let list = || own_ops(&record);
    let answer = match rules::too_short(&record).or_else(|| rules::too_long(&list())) {
        Some(n) => Err(Said::Refusal(n)),
        None => clipped(rules::beyond(&list(), amount, start), start, || RawRecordView::new(&record).clip_cigar_ops(amount as usize, start)),
    };
    lend(room, FILL_OPS, answer)
}

/// The original has no such call: the answer is that of a second program.
fn bed_blocks(words: &mut Words) -> Option<Reply> {
    let (start, list, sizes, starts) = (words.i32()?, words.list()?, words.room()?, words.room()?);
    words.done()?;
    let answer = rules::too_many(&list).map_or_else(|| bed::blocks(start, &list), Err);
    let mut lent = vec![vec![FILL_OPS; sizes], vec![FILL_OPS; starts]];
    let said = match answer {
        Err(n) => Said::Refusal(n),
        Ok((_, blocks)) if blocks.len() > sizes.min(starts) => Said::Refusal(6),
        Ok((end, blocks)) => {
            for (place, &(at, size)) in blocks.iter().enumerate() {
                lent[0][place] = u32::try_from(size).expect("a block ends below 2^31");
                lent[1][place] = u32::try_from(at).expect("a block ends below 2^31");
            }
            Said::Values(vec![start.into(), end, count(blocks.len())])
        }
    };
    Some(Reply { said, lent })
}

/// The original has no such call: the answer is that of a second program.
fn match_ops_from_md(words: &mut Words) -> Option<Reply> {
    let (list, text, room) = (words.list()?, words.bytes()?, words.room()?);
    words.done()?;
    let answer = rules::too_many(&list).map_or_else(|| md::told(&list, &text), Err);
    let mut lent = vec![FILL_OPS; room];
    let said = match answer {
        Err(n) => Said::Refusal(n),
        Ok(ops) if ops.len() > room => Said::Refusal(6),
        Ok(ops) => {
            lent[..ops.len()].copy_from_slice(&ops);
            Said::Values(vec![count(ops.len())])
        }
    };
    Some(Reply { said, lent: vec![lent] })
}

fn is_primary_fr_pair_raw(words: &mut Words) -> Option<Reply> {
    let (a, b) = (words.bytes()?, words.bytes()?);
    words.done()?;
    alone(match rules::too_short(&a).or(rules::too_short(&b)) {
        Some(n) => Said::Refusal(n),
        None => said(hold_asking(rules::asked_of_two(&a, &b), None, || overlap::is_primary_fr_pair_raw(&a, &b)), one),
    })
}

fn bases_extending_past_mate_ops(words: &mut Words) -> Option<Reply> {
    let (reverse, position, list) = (words.flag()?, words.i32()?, words.list()?);
    let (mate_position, mate_list) = (words.i32()?, words.list()?);
    words.done()?;
    let run = || overlap::bases_extending_past_mate_ops(reverse, position, &list, mate_position, &mate_list);
    alone(match rules::too_many(&list).or(rules::too_many(&mate_list)) {
        Some(n) => Said::Refusal(n),
        None => said(hold(None, run), |bases| one(count(bases))),
    })
}

/// The overhang of a record of 32 bytes or more against a list of 65,535 ops or fewer.
fn overhang(record: &[u8], list: &[u32]) -> Result<i64, Said> {
    let (asked, due) = (rules::asked_against(record, list), rules::overhang_overflows(record, list));
    hold_asking(asked, due, || overlap::num_bases_extending_past_mate_cigar_raw(record, list)).map(count)
}

fn num_bases_extending_past_mate_cigar_raw(words: &mut Words) -> Option<Reply> {
    let (record, list) = (words.bytes()?, words.list()?);
    words.done()?;
    alone(match rules::too_short(&record).or(rules::too_many(&list)) {
        Some(n) => Said::Refusal(n),
        None => said(overhang(&record, &list), one),
    })
}

fn num_bases_extending_past_mate_vs_mate_raw(words: &mut Words) -> Option<Reply> {
    let (record, mate) = (words.bytes()?, words.bytes()?);
    words.done()?;
    alone(match rules::too_short(&record).or(rules::too_short(&mate)) {
        Some(n) => Said::Refusal(n),
        None => {
            let run = || overlap::num_bases_extending_past_mate_vs_mate_raw(&record, &mate);
            let (asked, due) = (rules::asked_of_two(&record, &mate), rules::pair_overflows(&record, &mate));
            said(hold_asking(asked, due, run), |bases| one(count(bases)))
        }
    })
}

/// The strict reader's 5 answers 0 with nothing written; then 3, 2, 4 and 6.
fn overhang_of_text(record: &[u8], text: &[u8]) -> Result<(Vec<u32>, Said), Said> {
    if let Some(n) = rules::too_short(record) {
        return Err(Said::Refusal(n));
    }
    let Some(list) = parse(text)? else {
        return Ok((Vec::new(), Said::Values(vec![0, 0])));
    };
    if let Some(n) = rules::too_many(&list) {
        return Err(Said::Refusal(n));
    }
    let values = Said::Values(vec![overhang(record, &list)?, count(list.len())]);
    Ok((list, values))
}

fn num_bases_extending_past_mate_text_raw(words: &mut Words) -> Option<Reply> {
    let (record, text, room) = (words.bytes()?, words.bytes()?, words.room()?);
    words.done()?;
    lend(room, FILL_OPS, overhang_of_text(&record, &text))
}

fn reg2bin(words: &mut Words) -> Option<Reply> {
    let (beg, end) = (words.i32()?, words.i32()?);
    words.done()?;
    alone(said(hold(rules::overflows(end.into(), &[-1]), || bin::reg2bin(beg, end)), one))
}

fn set_bin_from_raw_bam(words: &mut Words) -> Option<Reply> {
    let record = words.bytes()?;
    words.done()?;
    let run = || {
        let mut written = record.clone();
        bin::set_bin_from_raw_bam(&mut written);
        written
    };
    let answer = match rules::too_short(&record) {
        Some(n) => Err(Said::Refusal(n)),
        None => hold_asking(rules::asked_at_a_place(&record), rules::bin_overflows(&record), run),
    };
    let lent = bytes_as_list(answer.as_ref().unwrap_or(&record));
    Some(Reply { said: said(answer, |written| one(u16::from_le_bytes([written[10], written[11]]))), lent: vec![lent] })
}

// ---- CSI bins, which the original lacks

fn csi_reg2bin(words: &mut Words) -> Option<Reply> {
    let (beg, end, min_shift, depth) = (words.i64()?, words.i64()?, words.u32()?, words.u32()?);
    words.done()?;
    alone(match csi::refusal(beg, end, min_shift, depth) {
        Some(n) => Said::Refusal(n),
        None => one(csi::bin(beg, end, min_shift, depth)),
    })
}

/// 6 is decided by the count, before a list that may have millions of bins is made.
fn csi_reg2bins(words: &mut Words) -> Option<Reply> {
    let (beg, end, min_shift, depth, room) = (words.i64()?, words.i64()?, words.u32()?, words.u32()?, words.room()?);
    words.done()?;
    let answer = match csi::refusal(beg, end, min_shift, depth) {
        Some(n) => Err(Said::Refusal(n)),
        None if csi::count(beg, end, min_shift, depth) > room as i64 => Err(Said::Refusal(6)),
        None => Ok(counted(csi::bins(beg, end, min_shift, depth))),
    };
    lend(room, FILL_OPS, answer)
}

// ---- document 02, item 1: the true list of a record is read by `tags`; what is made of its ops is the original's where it has a call for a list

fn true_ops(record: &[u8]) -> Result<Vec<u32>, Said> {
    tags::true_part(record).map(rules::as_ops).map_err(Said::Refusal)
}

fn true_cigar_raw_bytes(words: &mut Words) -> Option<Reply> {
    let record = words.bytes()?;
    words.done()?;
    let part = tags::true_part(&record);
    let lent = vec![bytes_as_list(part.unwrap_or_default())];
    Some(Reply { said: part.map_or_else(Said::Refusal, |_| Said::Values(Vec::new())), lent })
}

fn true_cigar_ops(words: &mut Words) -> Option<Reply> {
    let (record, room) = (words.bytes()?, words.room()?);
    words.done()?;
    lend(room, FILL_OPS, true_ops(&record).map(counted))
}

fn true_cigar_lengths(words: &mut Words) -> Option<Reply> {
    let record = words.bytes()?;
    words.done()?;
    let sums = |list: Vec<u32>| {
        let both = hold(rules::length_overflows(&list), || (cigar::reference_length_from_cigar(&list), cigar::query_length_from_cigar(&list)))?;
        Ok((both, rules::end_clips(&list)))
    };
    alone(said(true_ops(&record).and_then(sums), lengths))
}

/// A record with these ops, of 65,535 at most, without a name; the fields of another.
fn record_of(fields: &[u8], ops: &[u32]) -> Vec<u8> {
    let mut record = fields[..32].to_vec();
    record[8] = 0;
    record[12..14].copy_from_slice(&(ops.len() as u16).to_le_bytes());
    record.extend(ops.iter().flat_map(|op| op.to_le_bytes()));
    record
}

/// The original prints records alone: a longer list by its parts.
fn text(list: &[u32]) -> Vec<u8> {
    let mut whole = Vec::new();
    for part in list.chunks(MOST_OPS) {
        let mut out = Vec::new();
        cigar::cigar_to_bytes_into(&mut out, &record_of(&[0; 32], part));
        whole.extend(out);
    }
    whole
}

fn true_cigar_to_bytes_into(words: &mut Words) -> Option<Reply> {
    let (record, room) = (words.bytes()?, words.room()?);
    words.done()?;
    let printed = |list: Vec<u32>| hold(rules::bad_code(&list), || counted(bytes_as_list(&text(&list))));
    lend(room, FILL_BYTES.into(), true_ops(&record).and_then(printed))
}

/// Unmapped is told before the list is looked for. The original reads positions off records alone, of 65,535 ops at most: of a longer list the rules' own position is the answer.
fn true_unclipped_5prime_from_raw_bam(words: &mut Words) -> Option<Reply> {
    let record = words.bytes()?;
    words.done()?;
    if let Some(n) = rules::too_short(&record) {
        return alone(Said::Refusal(n));
    }
    let fields = rules::Record(&record);
    if fields.is_unmapped() {
        return alone(Said::Word("unmapped"));
    }
    alone(said(true_ops(&record), |list| {
        if list.is_empty() {
            return Said::Word("no_ops");
        }
        let own = rules::unclipped_position(&list, fields.pos(), fields.is_reverse());
        if list.len() > MOST_OPS {
            return own.map_or_else(Said::Refusal, one);
        }
        let short = record_of(&record, &list);
        said(hold(own.err(), || cigar::unclipped_5prime_from_raw_bam(&short)), |position| match own {
            Ok(own) if own == i64::from(position) => one(position),
            _ => Said::Mismatch(format!("{own:?} by the rules, and the original answers {position}")),
        })
    }))
}

fn true_clip(words: &mut Words, start: bool) -> Option<Reply> {
    let (record, amount, room) = (words.bytes()?, words.u64()?, words.room()?);
    words.done()?;
    lend(room, FILL_OPS, true_ops(&record).and_then(|list| clip_list(&list, amount, start)))
}

// ---- document 02, item 8: the record is taken apart and put together by `record`; the ops are clipped, and the bin is computed, by the original

/// The clipped record and the count; 1, 2, 8, 19, 15, 16, 4.
pub fn clipped_record(bytes: &[u8], amount: u64, start: bool) -> Result<(Vec<u8>, usize), Said> {
    let parts = record::apart(bytes).map_err(Said::Refusal)?;
    if let Some(n) = rules::too_long(&parts.ops) {
        return Err(Said::Refusal(n));
    }
    let beyond = rules::beyond(&parts.ops, amount, start);
    let (ops, lost) = clip(beyond, start, || cigar::clip_cigar_ops_raw(&parts.ops, amount as usize, start))?;
    let mut written = record::clipped(&parts, &ops, lost, start).map_err(Said::Refusal)?;
    let bin = hold(rules::bin_overflows(&written), || bin::bin_from_raw_bam(&written))?;
    written[10..12].copy_from_slice(&bin.to_le_bytes());
    Ok((written, lost))
}

fn write_clipped(words: &mut Words, start: bool) -> Option<Reply> {
    let (bytes, amount, room) = (words.bytes()?, words.u64()?, words.room()?);
    words.done()?;
    let answer = clipped_record(&bytes, amount, start).map(|(written, lost)| (bytes_as_list(&written), told(written.len(), lost, start)));
    lend(room, FILL_BYTES.into(), answer)
}

// ---- document 02, item 14: the received record is held to that one by `receive`

fn check_clipped(words: &mut Words, start: bool) -> Option<Reply> {
    let (sent, amount, received) = (words.bytes()?, words.u64()?, words.bytes()?);
    words.done()?;
    alone(match clipped_record(&sent, amount, start) {
        Err(why) => why,
        Ok((written, _)) => receive::first_difference(&written, &received).map_or_else(Said::Refusal, one),
    })
}

/// Every call of the protocol, in its order.
pub const CALLS: [(&str, Call); 73] = [
    ("ref_id", |w| of_record(w, never, fields::ref_id, one)),
    ("pos", |w| of_record(w, never, fields::pos, one)),
    ("l_read_name", |w| of_record(w, never, fields::reach::l_read_name, one)),
    ("bin", |w| of_record(w, never, |r| RawRecordView::new(r).bin(), one)),
    ("n_cigar_op", |w| of_record(w, never, fields::reach::n_cigar_op, one)),
    ("flags", |w| of_record(w, never, fields::reach::flags, one)),
    ("l_seq", |w| of_record(w, never, fields::l_seq, one)),
    ("mate_ref_id", |w| of_record(w, never, fields::mate_ref_id, one)),
    ("mate_pos", |w| of_record(w, never, fields::mate_pos, one)),
    ("template_length", |w| of_record(w, never, fields::template_length, one)),
    ("cigar_raw_bytes", cigar_raw_bytes),
    ("get_cigar_ops", get_cigar_ops),
    ("consumes_ref", |w| of_number(w, |n| one(cigar::consumes_ref(n)))),
    ("consumes_query", |w| of_number(w, |n| one(cigar::consumes_query(n)))),
    ("consumes_read", |w| of_number(w, |n| one(cigar::consumes_read(n)))),
    ("from_op_type", |w| of_number(w, |n| CigarKind::from_op_type(n).map_or(Said::Nothing(Vec::new()), |kind| one(kind as u8)))),
    ("as_char", |w| of_number(w, |n| CigarKind::from_op_type(n).map_or(Said::Nothing(Vec::new()), |kind| one(u32::from(kind.as_char()))))),
    ("op_new", op_new),
    ("op_kind", |w| of_number(w, |n| one(CigarOp::from_raw(n).kind() as u8))),
    ("op_len", |w| of_number(w, |n| one(CigarOp::from_raw(n).len()))),
    ("op_consumes_query", |w| of_number(w, |n| one(CigarOp::from_raw(n).consumes_query()))),
    ("op_consumes_ref", |w| of_number(w, |n| one(CigarOp::from_raw(n).consumes_ref()))),
    ("reference_length_from_cigar", |w| of_list(w, MOST_OPS, rules::length_overflows, cigar::reference_length_from_cigar, one)),
    ("query_length_from_cigar", |w| of_list(w, MOST_OPS, |_| None, cigar::query_length_from_cigar, |n| one(count(n)))),
    ("saturating_reference_length", |w| of_list(w, MOST_OPS, |_| None, overlap::saturating_reference_length, one)),
    ("reference_length_from_raw_bam", reference_length_from_raw_bam),
    ("reference_length_from_raw_bam_checked", reference_length_from_raw_bam_checked),
    ("query_length", |w| of_record(w, never, |r| RawRecordView::new(r).query_length(), |n| one(count(n)))),
    ("cigar_lengths", |w| of_record(w, |r| rules::length_overflows(&own_ops(r)), |r| (RawRecordView::new(r).cigar_lengths(), rules::end_clips(&own_ops(r))), lengths)),
    ("cigar_to_bytes_into", cigar_to_bytes_into),
    ("parse_cigar_string_ops", parse_cigar_string_ops),
    ("is_valid_mapped_cigar", is_valid_mapped_cigar),
    ("mate_unclipped_5prime", |w| of_mate_text(w, cigar::mate_unclipped_5prime)),
    ("mate_unclipped_5prime_1based", |w| of_mate_text(w, cigar::mate_unclipped_5prime_1based)),
    ("unclipped_5prime_from_raw_bam", unclipped_5prime_from_raw_bam),
    ("unclipped_5prime_raw", unclipped_5prime_raw),
    ("alignment_start_from_raw", |w| of_record(w, rules::alignment_start_overflows, cigar::alignment_start_from_raw, some)),
    ("alignment_end_from_raw", alignment_end_from_raw),
    ("read_pos_at_ref_pos_raw", |w| look_up(w, MOST_OPS)),
    ("clip_cigar_start_raw", |w| clip_raw(w, MOST_OPS, true)),
    ("clip_cigar_end_raw", |w| clip_raw(w, MOST_OPS, false)),
    ("clip_cigar_start", |w| clip_record(w, true)),
    ("clip_cigar_end", |w| clip_record(w, false)),
    ("bed_blocks", bed_blocks),
    ("match_ops_from_md", match_ops_from_md),
    ("is_mapped_opposite_strand_pair_raw", |w| of_record(w, never, overlap::is_mapped_opposite_strand_pair_raw, one)),
    ("is_fr_pair_raw", |w| of_asked(w, rules::asked_by_its_pair, never, overlap::reach::is_fr_pair_raw, one)),
    ("is_primary_fr_pair_raw", is_primary_fr_pair_raw),
    ("bases_extending_past_mate_ops", bases_extending_past_mate_ops),
    ("num_bases_extending_past_mate_cigar_raw", num_bases_extending_past_mate_cigar_raw),
    ("num_bases_extending_past_mate_vs_mate_raw", num_bases_extending_past_mate_vs_mate_raw),
    ("num_bases_extending_past_mate_text_raw", num_bases_extending_past_mate_text_raw),
    ("reg2bin", reg2bin),
    ("bin_from_raw_bam", |w| of_asked(w, rules::asked_at_a_place, rules::bin_overflows, bin::bin_from_raw_bam, one)),
    ("set_bin_from_raw_bam", set_bin_from_raw_bam),
    ("true_cigar_raw_bytes", true_cigar_raw_bytes),
    ("true_cigar_ops", true_cigar_ops),
    ("true_cigar_lengths", true_cigar_lengths),
    ("true_cigar_to_bytes_into", true_cigar_to_bytes_into),
    ("true_unclipped_5prime_from_raw_bam", true_unclipped_5prime_from_raw_bam),
    ("true_clip_cigar_start", |w| true_clip(w, true)),
    ("true_clip_cigar_end", |w| true_clip(w, false)),
    ("long_reference_length_from_cigar", |w| of_list(w, MOST_LONG_OPS, rules::length_overflows, cigar::reference_length_from_cigar, one)),
    ("long_query_length_from_cigar", |w| of_list(w, MOST_LONG_OPS, |_| None, cigar::query_length_from_cigar, |n| one(count(n)))),
    ("long_read_pos_at_ref_pos_raw", |w| look_up(w, MOST_LONG_OPS)),
    ("long_clip_cigar_start_raw", |w| clip_raw(w, MOST_LONG_OPS, true)),
    ("long_clip_cigar_end_raw", |w| clip_raw(w, MOST_LONG_OPS, false)),
    ("csi_reg2bin", csi_reg2bin),
    ("csi_reg2bins", csi_reg2bins),
    ("clip_record_start", |w| write_clipped(w, true)),
    ("clip_record_end", |w| write_clipped(w, false)),
    ("check_clipped_start", |w| check_clipped(w, true)),
    ("check_clipped_end", |w| check_clipped(w, false)),
];

/// The answer to a request, or none for a bad one.
pub fn reply(line: &[u8]) -> Option<Reply> {
    let (name, mut words) = split(line);
    let (_, call) = CALLS.iter().find(|(call, _)| call.as_bytes() == name)?;
    call(&mut words)
}
