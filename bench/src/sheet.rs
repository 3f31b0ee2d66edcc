//! Sheets, drawn line by line, and the faults that stop it.
use crate::lines::{parse, Line};

#[derive(Clone, Copy, Debug)]
pub struct Row {
    pub flow: usize,
    pub across: usize,
    pub first: usize,
    /// None for an earth.
    pub second: Option<usize>,
}

#[derive(Clone, Copy, Debug)]
pub struct Term {
    pub coefficient: i64,
    pub rate: bool,
    pub variable: usize,
}

#[derive(Default, Debug)]
pub struct Sheet {
    pub domains: Vec<i64>,
    pub variables: usize,
    pub taken: Vec<bool>,
    pub rows: Vec<Row>,
    pub laws: Vec<Vec<Term>>,
    pub terms: usize,
}

#[derive(Clone, Copy, Debug, PartialEq)]
pub struct Fault {
    pub line: usize,
    pub column: usize,
    pub number: u32,
    pub place: usize,
    pub cause: u32,
}

impl Fault {
    pub fn line(&self) -> String {
        let Fault { line, column, number, place, cause } = self;
        format!("fault {line} {column} {number} {place} {cause}\n")
    }
}

type Refused = (u32, usize, u32);

fn test(fails: bool, number: u32, place: usize) -> Result<(), Refused> {
    if fails {
        Err((number, place, 0))
    } else {
        Ok(())
    }
}

pub fn read(text: &[u8]) -> Result<Sheet, Fault> {
    if text.len() > 65_536 {
        return Err(Fault { line: 0, column: 0, number: 12, place: 0, cause: 0 });
    }
    let mut sheet = Sheet::default();
    let body = text.strip_suffix(b"\n").unwrap_or(text);
    if text.is_empty() {
        return Ok(sheet);
    }
    for (i, line) in body.split(|b| *b == b'\n').enumerate() {
        let at = |number, column, place, cause| Fault { line: i + 1, column, number, place, cause };
        let parsed = parse(line).map_err(|column| at(11, column, 0, 0))?;
        if let Some(line) = parsed {
            sheet.draw(&line).map_err(|(number, place, cause)| at(number, 1, place, cause))?;
        }
    }
    Ok(sheet)
}

impl Sheet {
    fn draw(&mut self, line: &Line) -> Result<(), Refused> {
        let f = &line.fields;
        let u = |i: usize| f[i] as usize;
        match line.letter {
            b'N' => {
                test(!(1..=4).contains(&f[0]), 4, 1)?;
                test(self.domains.len() >= 1000, 1, 1)?;
                self.domains.push(f[0]);
            }
            b'V' => {
                test(self.variables + u(0) > 4000, 1, 2)?;
                self.add_variables(u(0));
            }
            b'B' => self.row(Row { flow: u(0), across: u(1), first: u(2), second: Some(u(3)) })?,
            b'E' => self.row(Row { flow: u(0), across: u(1), first: u(2), second: None })?,
            b'L' => self.law(f)?,
            _ => self.chain(f)?,
        }
        Ok(())
    }

    fn add_variables(&mut self, count: usize) {
        self.variables += count;
        self.taken.resize(self.variables, false);
    }

    fn row(&mut self, row: Row) -> Result<(), Refused> {
        let nodes = self.domains.len();
        test(row.first >= nodes, 2, 3)?;
        test(row.second.is_some_and(|n| n >= nodes), 2, 4)?;
        test(row.flow >= self.variables, 3, 1)?;
        test(row.across >= self.variables, 3, 2)?;
        test(self.taken[row.flow], 5, 1)?;
        test(self.taken[row.across] || row.across == row.flow, 5, 2)?;
        test(row.second.is_some_and(|n| self.domains[n] != self.domains[row.first]), 4, 4)?;
        test(self.rows.len() >= 1500, 1, 3)?;
        self.push(row);
        Ok(())
    }

    fn push(&mut self, row: Row) {
        self.taken[row.flow] = true;
        self.taken[row.across] = true;
        self.rows.push(row);
    }

    fn law(&mut self, fields: &[i64]) -> Result<(), Refused> {
        let mut law = Vec::new();
        for (i, t) in fields.chunks(3).enumerate() {
            test(t[0] == 0 || t[0].abs() > 1_000_000, 6, i + 1)?;
            test(t[1] > 1, 10, i + 1)?;
            test(t[2] as usize >= self.variables, 3, i + 1)?;
            law.push(Term { coefficient: t[0], rate: t[1] == 1, variable: t[2] as usize });
        }
        test(self.laws.len() >= 1500, 1, 4)?;
        test(self.terms + law.len() > 6000, 1, 5)?;
        self.terms += law.len();
        self.laws.push(law);
        Ok(())
    }

    /// So many pieces in series between two nodes, each a branch with at most one law.
    fn chain(&mut self, f: &[i64]) -> Result<(), Refused> {
        let (domain, count, first, second) = (f[0], f[5] as usize, f[6] as usize, f[7] as usize);
        let nodes = self.domains.len();
        test(!(1..=4).contains(&domain) || !(1..=1000).contains(&count), 8, 1)?;
        test(first >= nodes, 2, 2)?;
        test(second >= nodes, 2, 3)?;
        test(self.domains[first] != domain, 4, 2)?;
        test(self.domains[second] != domain, 4, 3)?;
        let terms: Vec<(usize, i64)> = (0..4).map(|i| (i, f[1 + i])).filter(|t| t.1 != 0).collect();
        if terms.iter().any(|t| t.1.abs() > 1_000_000) {
            return Err((9, 10_000, 6));
        }
        let laws = if terms.is_empty() { 0 } else { count };
        test(nodes + count - 1 > 1000, 1, 1)?;
        test(self.variables + 2 * count > 4000, 1, 2)?;
        test(self.rows.len() + count > 1500, 1, 3)?;
        test(self.laws.len() + laws > 1500, 1, 4)?;
        test(self.terms + count * terms.len() > 6000, 1, 5)?;
        let from = self.variables;
        self.domains.resize(nodes + count - 1, domain);
        self.add_variables(2 * count);
        for i in 0..count {
            let begin = if i == 0 { first } else { nodes + i - 1 };
            let end = if i + 1 == count { second } else { nodes + i };
            self.push(Row { flow: from + 2 * i, across: from + 2 * i + 1, first: begin, second: Some(end) });
        }
        for i in 0..laws {
            let law = terms.iter().map(|&(place, coefficient)| Term {
                coefficient,
                rate: place >= 2,
                variable: from + 2 * i + place % 2,
            });
            self.laws.push(law.collect());
        }
        self.terms += laws * terms.len();
        Ok(())
    }
}
