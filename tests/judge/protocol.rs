//! The line protocol: the words of a request, and an answer as a line.

/// Most elements of a list, places of a lent output and bytes of a line; more is a bad request.
pub const MOST: usize = 1 << 21;
pub const LONGEST_LINE: usize = 1 << 24;

/// What lent outputs hold before a call.
pub const FILL_OPS: u32 = 2_779_096_485;
pub const FILL_BYTES: u8 = 165;

/// The words of a request after the call's name. Each reader answers `None` for a malformed word.
pub struct Words<'a>(std::slice::Split<'a, u8, fn(&u8) -> bool>);

/// The name of the call, and the words after it.
pub fn split(line: &[u8]) -> (&[u8], Words<'_>) {
    let mut words = line.split((|&b| b == b' ') as fn(&u8) -> bool);
    (words.next().unwrap_or_default(), Words(words))
}

fn decimal(digits: &[u8]) -> Option<u64> {
    if digits.is_empty() {
        return None;
    }
    digits.iter().try_fold(0u64, |n, &b| {
        if !b.is_ascii_digit() {
            return None;
        }
        n.checked_mul(10)?.checked_add(u64::from(b - b'0'))
    })
}

fn nibble(b: u8) -> Option<u8> {
    match b {
        b'0'..=b'9' => Some(b - b'0'),
        b'a'..=b'f' => Some(b - b'a' + 10),
        _ => None,
    }
}

fn element(word: &[u8], into: &mut Vec<u32>) -> Option<()> {
    let mut parts = word.splitn(2, |&b| b == b'*');
    let value = u32::try_from(decimal(parts.next()?)?).ok()?;
    let times = match parts.next() {
        Some(n) => usize::try_from(decimal(n)?).ok()?,
        None => 1,
    };
    if times > MOST - into.len() {
        return None;
    }
    into.resize(into.len() + times, value);
    Some(())
}

impl<'a> Words<'a> {
    fn word(&mut self) -> Option<&'a [u8]> {
        self.0.next()
    }

    /// True if no word is left.
    pub fn done(&mut self) -> Option<()> {
        self.0.next().is_none().then_some(())
    }

    pub fn u64(&mut self) -> Option<u64> {
        decimal(self.word()?)
    }

    pub fn u32(&mut self) -> Option<u32> {
        u32::try_from(self.u64()?).ok()
    }

    pub fn i64(&mut self) -> Option<i64> {
        let word = self.word()?;
        match word.strip_prefix(b"-") {
            Some(digits) => 0i64.checked_sub_unsigned(decimal(digits)?),
            None => i64::try_from(decimal(word)?).ok(),
        }
    }

    pub fn i32(&mut self) -> Option<i32> {
        i32::try_from(self.i64()?).ok()
    }

    pub fn flag(&mut self) -> Option<bool> {
        match self.word()? {
            b"0" => Some(false),
            b"1" => Some(true),
            _ => None,
        }
    }

    pub fn bytes(&mut self) -> Option<Vec<u8>> {
        let word = self.word()?;
        if word == b"-" {
            return Some(Vec::new());
        }
        if word.is_empty() || word.len() % 2 != 0 {
            return None;
        }
        word.chunks_exact(2).map(|two| Some(nibble(two[0])? << 4 | nibble(two[1])?)).collect()
    }

    pub fn list(&mut self) -> Option<Vec<u32>> {
        let word = self.word()?;
        let mut list = Vec::new();
        if word != b"-" {
            for part in word.split(|&b| b == b',') {
                element(part, &mut list)?;
            }
        }
        Some(list)
    }

    /// The number of places of a lent output.
    pub fn room(&mut self) -> Option<usize> {
        let places = usize::try_from(decimal(self.word()?.strip_prefix(b"@")?)?).ok()?;
        (places <= MOST).then_some(places)
    }
}

/// What a call answered.
#[derive(Debug, PartialEq)]
pub enum Said {
    Values(Vec<i64>),
    /// None, and what is told beside it.
    Nothing(Vec<i64>),
    /// An answer that is a word alone.
    Word(&'static str),
    Refusal(u8),
    /// The original and document 01, as the judge reads it, disagree.
    Mismatch(String),
}

/// The answer, and the whole of each thing that was lent, after the call.
pub struct Reply {
    pub said: Said,
    pub lent: Vec<Vec<u32>>,
}

pub fn put_number(n: u64, line: &mut Vec<u8>) {
    let mut digits = [0u8; 20];
    let mut at = digits.len();
    let mut rest = n;
    loop {
        at -= 1;
        digits[at] = b'0' + (rest % 10) as u8;
        rest /= 10;
        if rest == 0 {
            break;
        }
    }
    line.extend_from_slice(&digits[at..]);
}

pub fn put_signed(n: i64, line: &mut Vec<u8>) {
    if n < 0 {
        line.push(b'-');
    }
    put_number(n.unsigned_abs(), line);
}

/// A list, each run of equal values as `V*N`.
pub fn put_list(list: &[u32], line: &mut Vec<u8>) {
    if list.is_empty() {
        line.push(b'-');
    }
    let mut at = 0;
    while at < list.len() {
        let run = list[at..].iter().take_while(|&&v| v == list[at]).count();
        if at > 0 {
            line.push(b',');
        }
        put_number(u64::from(list[at]), line);
        if run > 1 {
            line.push(b'*');
            put_number(run as u64, line);
        }
        at += run;
    }
}

pub fn put_hex(bytes: &[u8], line: &mut Vec<u8>) {
    const DIGITS: &[u8; 16] = b"0123456789abcdef";
    if bytes.is_empty() {
        line.push(b'-');
    }
    for b in bytes {
        line.extend_from_slice(&[DIGITS[usize::from(b >> 4)], DIGITS[usize::from(b & 15)]]);
    }
}

impl Reply {
    pub fn put(&self, line: &mut Vec<u8>) {
        match &self.said {
            Said::Values(values) | Said::Nothing(values) => {
                line.extend_from_slice(if matches!(self.said, Said::Values(_)) { b"ok" } else { b"none" });
                for &v in values {
                    line.push(b' ');
                    put_signed(v, line);
                }
            }
            Said::Word(word) => line.extend_from_slice(word.as_bytes()),
            Said::Refusal(n) => {
                line.extend_from_slice(b"refuse ");
                put_number(u64::from(*n), line);
            }
            Said::Mismatch(why) => {
                line.extend_from_slice(b"MISMATCH ");
                line.extend_from_slice(why.as_bytes());
            }
        }
        for content in &self.lent {
            line.extend_from_slice(b" ; ");
            put_list(content, line);
        }
    }
}
