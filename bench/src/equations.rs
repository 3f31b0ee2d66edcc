//! The equations of a sheet, listed and printed.
use crate::sheet::Sheet;
use std::io::Write;

/// All terms, one equation after another, as coefficient, rate or not, and number; and where each equation ends.
pub fn list(sheet: &Sheet) -> (Vec<(i64, bool, usize)>, Vec<usize>) {
    let mut terms = Vec::new();
    let mut ends = Vec::new();
    for law in &sheet.laws {
        terms.extend(law.iter().map(|t| (t.coefficient, t.rate, t.variable)));
        ends.push(terms.len());
    }
    let mut sums = vec![Vec::new(); sheet.domains.len()];
    for row in &sheet.rows {
        if row.second == Some(row.first) {
            continue;
        }
        sums[row.first].push((1, false, row.flow));
        if let Some(second) = row.second {
            sums[second].push((-1, false, row.flow));
        }
    }
    for sum in sums {
        terms.extend(sum);
        ends.push(terms.len());
    }
    for row in &sheet.rows {
        terms.push((1, false, row.across));
        terms.push((-1, false, sheet.variables + row.first));
        if let Some(second) = row.second {
            terms.push((1, false, sheet.variables + second));
        }
        ends.push(terms.len());
    }
    (terms, ends)
}

pub fn print(sheet: &Sheet) -> Vec<u8> {
    let (terms, ends) = list(sheet);
    let mut out = Vec::new();
    writeln!(out, "equations {}", ends.len()).unwrap();
    let mut begin = 0;
    for end in ends {
        if begin == end {
            out.extend_from_slice(b"0");
        }
        for (i, &(coefficient, rate, number)) in terms[begin..end].iter().enumerate() {
            let blank = if i == 0 { "" } else { " " };
            let (letter, number) = match (number < sheet.variables, rate) {
                (true, false) => ('v', number),
                (true, true) => ('r', number),
                (false, _) => ('p', number - sheet.variables),
            };
            write!(out, "{blank}{coefficient:+}{letter}{number}").unwrap();
        }
        out.extend_from_slice(b" = 0\n");
        begin = end;
    }
    out
}
