//! Readings as a text: a value and a rate for each variable.

const LARGEST: i128 = 1 << 40;

pub struct Readings {
    pub values: Vec<i64>,
    pub rates: Vec<i64>,
}

/// The readings, or what is told on standard error.
pub fn read(text: &[u8], variables: usize) -> Result<Readings, String> {
    let mut readings = Readings { values: Vec::new(), rates: Vec::new() };
    let body = text.strip_suffix(b"\n").unwrap_or(text);
    let mut last = 0;
    if !text.is_empty() {
        for line in body.split(|b| *b == b'\n') {
            last += 1;
            if line.is_empty() || line[0] == b'#' {
                continue;
            }
            let Some((value, rate)) = parse(line) else {
                return Err(format!("readings fault {last}: not a value, a blank and a rate\n"));
            };
            if value.abs() > LARGEST || rate.abs() > LARGEST {
                return Err(format!("readings fault {last}: a number is not from -{LARGEST} to {LARGEST}\n"));
            }
            if readings.values.len() == variables {
                return Err(format!("readings fault {last}: more readings than variables\n"));
            }
            readings.values.push(value as i64);
            readings.rates.push(rate as i64);
        }
    }
    if readings.values.len() < variables {
        return Err(format!("readings fault {last}: fewer readings than variables\n"));
    }
    Ok(readings)
}

fn parse(line: &[u8]) -> Option<(i128, i128)> {
    let blank = line.iter().position(|b| *b == b' ')?;
    Some((number(&line[..blank])?, number(&line[blank + 1..])?))
}

fn number(text: &[u8]) -> Option<i128> {
    let (minus, digits) = match text {
        [b'-', rest @ ..] => (true, rest),
        _ => (false, text),
    };
    if digits.is_empty() {
        return None;
    }
    let mut size: i128 = 0;
    for b in digits {
        if !b.is_ascii_digit() {
            return None;
        }
        size = (size * 10 + i128::from(b - b'0')).min(1 << 70);
    }
    Some(if minus { -size } else { size })
}
