//! Matches told apart from MD (document 02, item 13). The original has no such call: this is a second program, written from the request's words.

/// What MD says next: so many bases that match, one that doesn't, so many reference bases that the read lacks.
#[derive(Clone, Copy)]
enum Part {
    Same(u64),
    Other,
    Gap(u64),
}

/// The number that a text begins with, and what stands behind it; one that is too large for 64 bits is the largest.
fn number(text: &[u8]) -> Option<(u64, &[u8])> {
    let digits = text.iter().take_while(|byte| byte.is_ascii_digit()).count();
    let value = text[..digits].iter().fold(0u64, |value, byte| value.saturating_mul(10).saturating_add(u64::from(byte - b'0')));
    (digits > 0).then_some((value, &text[digits..]))
}

/// "Numbers alternating with letters or `^` and letters", from a number to a number.
fn parts(text: &[u8]) -> Option<Vec<Part>> {
    let (matches, mut rest) = number(text)?;
    let mut found = vec![Part::Same(matches)];
    while let Some((&first, behind)) = rest.split_first() {
        let letters = behind.iter().take_while(|byte| byte.is_ascii_uppercase()).count();
        let (part, behind) = match first {
            b'A'..=b'Z' => (Part::Other, behind),
            b'^' if letters > 0 => (Part::Gap(letters as u64), &behind[letters..]),
            _ => return None,
        };
        let (matches, behind) = number(behind)?;
        found.push(part);
        found.push(Part::Same(matches));
        rest = behind;
    }
    Some(found)
}

/// The runs of = and X that an M of this length becomes, behind the answer so far; the parts that it uses are taken off.
fn matches(mut length: u64, parts: &mut [Part], next: &mut usize, answer: &mut Vec<u32>) -> Option<()> {
    let first = answer.len();
    while length > 0 {
        let (bases, code) = match parts.get_mut(*next)? {
            Part::Same(left) => {
                let bases = length.min(*left);
                *left -= bases;
                *next += usize::from(*left == 0);
                (bases, 7)
            }
            Part::Other => {
                *next += 1;
                (1, 8)
            }
            Part::Gap(_) => return None,
        };
        length -= bases;
        match answer[first..].last_mut() {
            Some(run) if *run & 15 == code => *run += (bases as u32) << 4,
            _ if bases > 0 => answer.push((bases as u32) << 4 | code),
            _ => {}
        }
    }
    Some(())
}

/// The list with each M replaced, or 20, 21 or 22.
pub fn told(list: &[u32], text: &[u8]) -> Result<Vec<u32>, u8> {
    let mut parts = parts(text).ok_or(20)?;
    if list.iter().any(|op| matches!(op & 15, 7 | 8)) {
        return Err(21);
    }
    let mut answer = Vec::new();
    let mut next = 0;
    for &op in list {
        match (op & 15, u64::from(op >> 4)) {
            (0, length) => matches(length, &mut parts, &mut next, &mut answer).ok_or(22)?,
            (2, length) if length > 0 => {
                while let Some(Part::Same(0)) = parts.get(next) {
                    next += 1;
                }
                match parts.get(next) {
                    Some(&Part::Gap(bases)) if bases == length => next += 1,
                    _ => return Err(22),
                }
                answer.push(op);
            }
            _ => answer.push(op),
        }
    }
    match parts[next..].iter().all(|part| matches!(part, Part::Same(0))) {
        true => Ok(answer),
        false => Err(22),
    }
}
