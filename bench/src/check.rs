//! The check of readings, over whole numbers modulo 2^64.
use crate::readings::Readings;
use crate::sheet::Sheet;

#[derive(Clone, Copy, Debug, PartialEq)]
pub enum Verdict {
    Holds,
    Law(usize),
    Node(usize),
    Row(usize),
}

impl Verdict {
    pub fn line(&self) -> String {
        match self {
            Verdict::Holds => "holds\n".to_string(),
            Verdict::Law(k) => format!("law {k}\n"),
            Verdict::Node(n) => format!("node {n}\n"),
            Verdict::Row(k) => format!("row {k}\n"),
        }
    }
}

/// The verdict, and the potentials of the nodes.
pub fn check(sheet: &Sheet, readings: &Readings) -> (Verdict, Vec<i64>) {
    let nodes = sheet.domains.len();
    let none = vec![0; nodes];
    for (k, law) in sheet.laws.iter().enumerate() {
        let sum = law.iter().fold(0i64, |sum, t| {
            let of = if t.rate { &readings.rates } else { &readings.values };
            sum.wrapping_add(t.coefficient.wrapping_mul(of[t.variable]))
        });
        if sum != 0 {
            return (Verdict::Law(k), none);
        }
    }
    let mut excess = none.clone();
    for row in &sheet.rows {
        let flow = readings.values[row.flow];
        excess[row.first] = excess[row.first].wrapping_add(flow);
        if let Some(second) = row.second {
            excess[second] = excess[second].wrapping_sub(flow);
        }
    }
    if let Some(n) = excess.iter().position(|x| *x != 0) {
        return (Verdict::Node(n), none);
    }
    // Vertex 0 is the earth. A vertex's potential is what leads from it to the root of its part.
    let mut root: Vec<usize> = (0..=nodes).collect();
    let mut potential = vec![0i64; nodes + 1];
    let mut members: Vec<Vec<usize>> = (0..=nodes).map(|v| vec![v]).collect();
    for (k, row) in sheet.rows.iter().enumerate() {
        let (a, b) = (row.first + 1, row.second.map_or(0, |n| n + 1));
        let gap = readings.values[row.across].wrapping_sub(potential[a].wrapping_sub(potential[b]));
        let (ra, rb) = (root[a], root[b]);
        if ra == rb {
            if gap != 0 {
                return (Verdict::Row(k), none);
            }
            continue;
        }
        let (from, to, shift) = if ra > rb { (ra, rb, gap) } else { (rb, ra, gap.wrapping_neg()) };
        for v in std::mem::take(&mut members[from]) {
            potential[v] = potential[v].wrapping_add(shift);
            root[v] = to;
            members[to].push(v);
        }
    }
    potential.remove(0);
    (Verdict::Holds, potential)
}
