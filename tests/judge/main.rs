//! The judge: `judge oracle` answers request lines by the original, and where it has no such call by a plain second program, `judge generate SEED [SIZE]` writes request lines, `judge pairs SEED [SIZE]`
//! writes both with a tab between, `judge differ` reads such lines and tells how many answers are not its own, `judge table SEED [SIZE]` counts the
//! answers of each kind, `judge record SEED` keeps some of each kind, `judge calls` names the calls.

mod bed;
mod csi;
mod generate;
mod md;
mod oracle;
mod protocol;
mod receive;
mod record;
mod rules;
mod tags;

use std::collections::BTreeMap;
use std::io::{self, BufRead, Read, Write};

const BLOCK: usize = 1 << 16;

/// Appends the answer to a request.
fn put_answer(request: &[u8], out: &mut Vec<u8>) {
    match oracle::reply(request) {
        Some(reply) => reply.put(out),
        None => out.extend_from_slice(b"bad request"),
    }
}

fn flush(out: &mut Vec<u8>) -> io::Result<()> {
    io::stdout().write_all(out)?;
    out.clear();
    Ok(())
}

/// Answers standard input line by line. What is answered is written before more is read.
fn answer_lines() -> io::Result<()> {
    let mut input = io::stdin().lock();
    let mut block = vec![0; BLOCK];
    let (mut line, mut out) = (Vec::new(), Vec::new());
    loop {
        flush(&mut out)?;
        let read = input.read(&mut block)?;
        if read == 0 {
            break;
        }
        for part in block[..read].split_inclusive(|&b| b == b'\n') {
            line.extend_from_slice(&part[..part.len().min(protocol::LONGEST_LINE + 2 - line.len())]);
            if part.ends_with(b"\n") {
                line.truncate(line.len() - 1);
                put_line(&line, &mut out);
                line.clear();
            }
        }
    }
    if !line.is_empty() {
        put_line(&line, &mut out);
    }
    flush(&mut out)
}

fn put_line(line: &[u8], out: &mut Vec<u8>) {
    if line.len() > protocol::LONGEST_LINE {
        out.extend_from_slice(b"bad request");
    } else {
        put_answer(line, out);
    }
    out.push(b'\n');
}

/// Writes each generated request, with its answer behind a tab if `answered`.
fn write_generated(seed: u64, size: u64, answered: bool) -> io::Result<()> {
    let mut out = Vec::new();
    generate::all(seed, size, &mut |request| {
        out.extend_from_slice(request);
        if answered {
            out.push(b'\t');
            put_answer(request, &mut out);
        }
        out.push(b'\n');
        if out.len() > BLOCK { flush(&mut out) } else { Ok(()) }
    })?;
    flush(&mut out)
}

/// The call and the kind of an answer: `ok 0` (its first value is 0), `ok`, `none`, `refuse N`.
fn kind_of(request: &[u8], answer: &[u8]) -> (String, String) {
    let name = String::from_utf8_lossy(protocol::split(request).0).into_owned();
    let answer = String::from_utf8_lossy(answer);
    let words: Vec<&str> = answer.split(' ').collect();
    let kind = match words[0] {
        "refuse" => words[..2].join(" "),
        "ok" if words.get(1) == Some(&"0") => "ok 0".to_owned(),
        word => word.to_owned(),
    };
    (name, kind)
}

/// Counts the answers of each call by kind.
fn write_table(seed: u64, size: u64) -> io::Result<()> {
    let mut table: BTreeMap<String, BTreeMap<String, u64>> = BTreeMap::new();
    let mut answer = Vec::new();
    generate::all(seed, size, &mut |request| {
        answer.clear();
        put_answer(request, &mut answer);
        let (name, kind) = kind_of(request, &answer);
        *table.entry(name).or_default().entry(kind).or_default() += 1;
        Ok(())
    })?;
    let mut total = 0;
    for (name, kinds) in &table {
        let cases: u64 = kinds.values().sum();
        let kinds: Vec<String> = kinds.iter().map(|(kind, n)| format!("{kind}: {n}")).collect();
        println!("{name}: {cases} ({})", kinds.join(", "));
        total += cases;
    }
    println!("{} calls, {total} cases", table.len());
    Ok(())
}

/// The lines kept of one call and kind: some short ones, spread over all, and the first long one, for kinds that have no short one.
#[derive(Default)]
struct Kept {
    seen: u64,
    short: Vec<Vec<u8>>,
    long: Option<Vec<u8>>,
}

impl Kept {
    fn offer(&mut self, line: Vec<u8>, rng: &mut generate::Rng) {
        const EACH: u64 = 24;
        const SHORT: usize = 360;
        const LONGEST: usize = 1 << 19;
        if line.len() > LONGEST {
            return;
        }
        if line.len() > SHORT {
            self.long.get_or_insert(line);
            return;
        }
        self.seen += 1;
        let place = rng.below(self.seen);
        if self.seen <= EACH {
            self.short.push(line);
        } else if place < EACH {
            self.short[place as usize] = line;
        }
    }
}

/// Writes some requests of each call and kind of answer, with their answers.
fn write_record(seed: u64) -> io::Result<()> {
    let mut rng = generate::Rng::new(seed);
    let mut kept: BTreeMap<(String, String), Kept> = BTreeMap::new();
    generate::all(seed, 1, &mut |request| {
        let mut line = request.to_vec();
        line.push(b'\t');
        put_answer(request, &mut line);
        kept.entry(kind_of(request, &line[request.len() + 1..])).or_default().offer(line, &mut rng);
        Ok(())
    })?;
    let mut out = Vec::new();
    for kind in kept.values() {
        let lines = if kind.short.is_empty() { kind.long.as_slice() } else { &kind.short };
        for line in lines {
            out.extend_from_slice(line);
            out.push(b'\n');
        }
    }
    flush(&mut out)
}

/// Answers the requests of lines that have an answer behind a tab. Prints how many differ, of how many calls, and the shortest request of them.
fn write_differences() -> io::Result<()> {
    let mut calls: BTreeMap<Vec<u8>, u64> = BTreeMap::new();
    let mut shortest: Option<Vec<u8>> = None;
    let mut answer = Vec::new();
    for line in io::stdin().lock().split(b'\n') {
        let line = line?;
        let (request, given) = line.split_at(line.iter().position(|&b| b == b'\t').ok_or(io::Error::other("a line has no tab"))?);
        answer.clear();
        put_answer(request, &mut answer);
        if answer == given[1..] {
            continue;
        }
        *calls.entry(protocol::split(request).0.to_vec()).or_default() += 1;
        if shortest.as_ref().is_none_or(|s| request.len() < s.len()) {
            shortest = Some(request.to_vec());
        }
    }
    let shortest = String::from_utf8_lossy(&shortest.unwrap_or_default()).into_owned();
    println!("{}\t{}\t{shortest}", calls.values().sum::<u64>(), calls.len());
    Ok(())
}

fn run(words: &[String]) -> io::Result<()> {
    let number = |at: usize, default: u64| words.get(at).map_or(Ok(default), |w| w.parse().map_err(io::Error::other));
    let (seed, size) = (number(1, 1)?, number(2, 1)?);
    match words.first().map(String::as_str) {
        Some("oracle") => answer_lines(),
        Some("generate") => write_generated(seed, size, false),
        Some("pairs") => write_generated(seed, size, true),
        Some("differ") => write_differences(),
        Some("table") => write_table(seed, size),
        Some("record") => write_record(seed),
        Some("calls") => {
            oracle::CALLS.iter().for_each(|(name, _)| println!("{name}"));
            Ok(())
        }
        _ => Err(io::Error::other("judge oracle | generate | pairs | differ | table | record | calls, then SEED and SIZE")),
    }
}

fn main() {
    oracle::quiet_stops();
    let words: Vec<String> = std::env::args().skip(1).collect();
    if let Err(error) = run(&words) {
        eprintln!("judge: {error}");
        std::process::exit(2);
    }
}
