//! The allowed lines of a sheet text, and the column at which another line goes wrong.

#[derive(Clone, Copy, PartialEq)]
enum Kind {
    Number,
    Coefficient,
}

use Kind::{Coefficient as C, Number as N};

#[derive(Debug)]
pub struct Line {
    pub letter: u8,
    pub fields: Vec<i64>,
}

/// The line's letter and fields; nothing for a comment and an empty line; or the column of its fault.
pub fn parse(line: &[u8]) -> Result<Option<Line>, usize> {
    let Some(&letter) = line.first() else {
        return Ok(None);
    };
    let kinds: &[Kind] = match letter {
        b'#' => return Ok(None),
        b'N' | b'V' => &[N],
        b'B' => &[N, N, N, N],
        b'E' => &[N, N, N],
        b'L' => &[C, N, N],
        b'C' => &[N, C, C, C, C, N, N, N],
        _ => return Err(1),
    };
    let most = if letter == b'L' { 8 * kinds.len() } else { kinds.len() };
    let mut fields = Vec::new();
    let mut at = 1;
    while fields.len() < most {
        let whole = letter == b'L' && !fields.is_empty() && fields.len() % kinds.len() == 0;
        if whole && at == line.len() {
            break;
        }
        fields.push(field(line, &mut at, kinds[fields.len() % kinds.len()])?);
    }
    if at < line.len() {
        return Err(at + 1);
    }
    Ok(Some(Line { letter, fields }))
}

fn field(line: &[u8], at: &mut usize, kind: Kind) -> Result<i64, usize> {
    if line.get(*at) != Some(&b' ') {
        return Err(*at + 1);
    }
    *at += 1;
    let minus = kind == Kind::Coefficient && line.get(*at) == Some(&b'-');
    if minus {
        *at += 1;
    }
    let begin = *at;
    let mut value = 0;
    while *at < begin + 7 && line.get(*at).is_some_and(u8::is_ascii_digit) {
        value = value * 10 + i64::from(line[*at] - b'0');
        *at += 1;
    }
    if *at == begin {
        return Err(*at + 1);
    }
    Ok(if minus { -value } else { value })
}
