//! Holds the programs against the plain model on generated and damaged texts and readings.
//! `compare RIGCOBASE ACCEPTING SEED COUNT`: the two built programs, where the dice begin, and how many texts of each.
use plain::readings::Readings;
use plain::{answer, check, print_text, read, Sheet, Verdict};
use std::collections::BTreeMap;
use std::io::Write;
use std::process::{Command, Stdio};

struct Dice(u64);

impl Dice {
    fn next(&mut self) -> u64 {
        self.0 ^= self.0 << 13;
        self.0 ^= self.0 >> 7;
        self.0 ^= self.0 << 17;
        self.0.wrapping_mul(0x2545_F491_4F6C_DD1D) >> 11
    }

    fn below(&mut self, n: usize) -> usize {
        (self.next() % n.max(1) as u64) as usize
    }

    fn one_in(&mut self, n: usize) -> bool {
        self.below(n) == 0
    }
}

/// A text whose lines are mostly right: numbers are drawn near those that are there.
fn sheet_text(dice: &mut Dice, bad: usize) -> Vec<u8> {
    let mut text = Vec::new();
    let (mut nodes, mut variables, mut free) = (Vec::new(), 0usize, Vec::new());
    let lawless = dice.one_in(2);
    for _ in 0..dice.below(40) + 1 {
        let wild = bad > 0 && dice.one_in(bad);
        let some = |dice: &mut Dice, n: usize| if wild { dice.below(n + 3) } else { dice.below(n) };
        match dice.below(12) {
            0..=2 => {
                let domain = if wild { dice.below(6) } else if dice.one_in(3) { dice.below(4) + 1 } else { 1 };
                if (1..=4).contains(&domain) {
                    nodes.push(domain);
                }
                writeln!(text, "N {domain}").unwrap();
            }
            3 | 4 => {
                let count = dice.below(7) * if wild && dice.one_in(4) { 1000 } else { 1 };
                if variables + count <= 4000 {
                    free.extend(variables..variables + count);
                    variables += count;
                }
                writeln!(text, "V {count}").unwrap();
            }
            5..=7 if free.len() > 1 && !nodes.is_empty() => {
                let flow = if wild { dice.below(variables + 2) } else { free.swap_remove(dice.below(free.len())) };
                let across = if wild { dice.below(variables + 2) } else { free.swap_remove(dice.below(free.len())) };
                let first = some(dice, nodes.len());
                let mut second = some(dice, nodes.len());
                if !wild && nodes[first] != nodes[second] {
                    second = first;
                }
                writeln!(text, "B {flow} {across} {first} {second}").unwrap();
            }
            8 if free.len() > 1 && !nodes.is_empty() => {
                let flow = free.swap_remove(dice.below(free.len()));
                let across = free.swap_remove(dice.below(free.len()));
                writeln!(text, "E {flow} {across} {}", some(dice, nodes.len())).unwrap();
            }
            9 if variables > 0 && !lawless => {
                write!(text, "L").unwrap();
                for _ in 0..dice.below(if wild { 10 } else { 4 }) + 1 {
                    let size = dice.below(if wild { 2_000_000 } else { 500 }) + usize::from(!wild);
                    let minus = if dice.one_in(2) { "-" } else { "" };
                    let order = dice.below(if wild { 3 } else { 2 });
                    write!(text, " {minus}{size} {order} {}", some(dice, variables)).unwrap();
                }
                writeln!(text).unwrap();
            }
            10 if !nodes.is_empty() => {
                let first = some(dice, nodes.len());
                let domain = if wild { dice.below(6) } else { nodes[first] };
                let mut second = some(dice, nodes.len());
                if !wild && nodes[second] != domain {
                    second = first;
                }
                let count = if wild { dice.below(1200) } else { dice.below(5) + 1 };
                let mut c = || if lawless || dice.one_in(3) { 0 } else { dice.below(if wild { 3_000_000 } else { 90 }) };
                let (a, b, e, f) = (c(), c(), c(), c());
                writeln!(text, "C {domain} {a} -{b} {e} {f} {count} {first} {second}").unwrap();
                if let Ok(sheet) = read(&text) {
                    nodes = sheet.domains.iter().map(|d| *d as usize).collect();
                    variables = sheet.variables;
                }
            }
            _ => text.extend_from_slice(if dice.one_in(2) { b"# note\n" } else { b"\n" }),
        }
    }
    text
}

/// The text with some bytes changed, left out, doubled or put in.
fn damage(dice: &mut Dice, text: &mut Vec<u8>) {
    for _ in 0..dice.below(3) + 1 {
        let at = dice.below(text.len());
        let byte = *[b' ', b'-', b'0', b'9', b'\n', b'\r', b'N', b'L', b'#', 0, 255, b'x']
            .get(dice.below(12))
            .unwrap();
        match dice.below(4) {
            0 if !text.is_empty() => text[at] = byte,
            1 if !text.is_empty() => {
                text.remove(at);
            }
            2 if !text.is_empty() => text.insert(at, text[at]),
            _ => text.insert(at, byte),
        }
    }
}

/// Readings of a sheet that keep to its nodes and walks as far as chance allows.
fn readings_of(dice: &mut Dice, sheet: &Sheet) -> Readings {
    let big = dice.one_in(8);
    let number = |dice: &mut Dice| -> i64 {
        if big {
            (dice.next() >> 13) as i64 * if dice.one_in(2) { -2 } else { 2 }
        } else {
            dice.below(21) as i64 - 10
        }
    };
    let mut values: Vec<i64> = (0..sheet.variables).map(|_| number(dice)).collect();
    let rates = (0..sheet.variables).map(|_| number(dice)).collect();
    let potentials: Vec<i64> = sheet.domains.iter().map(|_| number(dice)).collect();
    let mut excess = vec![0i64; sheet.domains.len()];
    for row in &sheet.rows {
        let end = row.second.map_or(0, |n| potentials[n]);
        values[row.across] = potentials[row.first].wrapping_sub(end);
        if let Some(second) = row.second {
            if !dice.one_in(3) {
                values[row.flow] = 0;
            }
            excess[row.first] = excess[row.first].wrapping_add(values[row.flow]);
            excess[second] = excess[second].wrapping_sub(values[row.flow]);
        }
    }
    for row in sheet.rows.iter().filter(|row| row.second.is_none()) {
        values[row.flow] = excess[row.first].wrapping_neg();
        excess[row.first] = 0;
    }
    Readings { values, rates }
}

fn readings_text(dice: &mut Dice, readings: &Readings) -> Vec<u8> {
    let mut text = Vec::new();
    for (value, rate) in readings.values.iter().zip(&readings.rates) {
        if dice.one_in(9) {
            writeln!(text, "# a reading").unwrap();
        }
        writeln!(text, "{value} {rate}").unwrap();
    }
    text
}

fn run(program: &str, args: &[&str], input: &[u8]) -> (Vec<u8>, String, i32) {
    let mut child = Command::new(program)
        .args(args)
        .stdin(Stdio::piped())
        .stdout(Stdio::piped())
        .stderr(Stdio::piped())
        .spawn()
        .expect("the program runs");
    let _ = child.stdin.take().unwrap().write_all(input);
    let out = child.wait_with_output().unwrap();
    (out.stdout, String::from_utf8_lossy(&out.stderr).into_owned(), out.status.code().unwrap_or(-1))
}

fn main() {
    let args: Vec<String> = std::env::args().collect();
    let [_, rigcobase, accepting, seed, count] = &args[..] else {
        panic!("compare RIGCOBASE ACCEPTING SEED COUNT");
    };
    let mut dice = Dice(seed.parse::<u64>().unwrap() * 2 + 1);
    let count: usize = count.parse().unwrap();
    let mut seen: BTreeMap<String, usize> = BTreeMap::new();
    let folder = std::env::temp_dir().join(format!("compare{}", std::process::id()));
    std::fs::create_dir_all(&folder).unwrap();
    let (sheet_file, readings_file) = (folder.join("sheet"), folder.join("readings"));
    for i in 0..count {
        let bad = [0, 0, 12, 4][i % 4];
        let mut text = sheet_text(&mut dice, bad);
        if i % 3 == 0 {
            damage(&mut dice, &mut text);
        }
        let (want, status) = print_text(&text);
        let (got, _, code) = run(rigcobase, &[], &text);
        let kind = match read(&text) {
            Ok(_) => "sheet".to_string(),
            Err(fault) => format!("fault {}", fault.number),
        };
        *seen.entry(kind).or_default() += 1;
        if got != want || code != status {
            println!("DIFFERS on the sheet text:\n{}", String::from_utf8_lossy(&text));
            println!("wanted {status}: {}", String::from_utf8_lossy(&want));
            println!("printed {code}: {}", String::from_utf8_lossy(&got));
            std::process::exit(1);
        }
        let Ok(sheet) = read(&text) else { continue };
        let mut readings = readings_of(&mut dice, &sheet);
        if !readings.values.is_empty() && dice.one_in(2) {
            let at = dice.below(readings.values.len());
            readings.values[at] = readings.values[at].wrapping_add(1);
        }
        let mut told = readings_text(&mut dice, &readings);
        if dice.one_in(6) {
            damage(&mut dice, &mut told);
        }
        std::fs::write(&sheet_file, &text).unwrap();
        std::fs::write(&readings_file, &told).unwrap();
        let (want, error, status) = answer(&text, &told);
        let files = [sheet_file.to_str().unwrap(), readings_file.to_str().unwrap()];
        let (got, said, code) = run(accepting, &files, &[]);
        let kind = match plain::readings::read(&told, sheet.variables) {
            Err(_) => "readings at fault".to_string(),
            Ok(readings) => match check(&sheet, &readings).0 {
                Verdict::Holds => "holds".to_string(),
                Verdict::Law(_) => "law".to_string(),
                Verdict::Node(_) => "node".to_string(),
                Verdict::Row(_) => "row".to_string(),
            },
        };
        *seen.entry(kind).or_default() += 1;
        if got != want || said != error || code != status {
            println!("DIFFERS on the sheet text:\n{}", String::from_utf8_lossy(&text));
            println!("and the readings:\n{}", String::from_utf8_lossy(&told));
            println!("wanted {status}: {error}{}", String::from_utf8_lossy(&want));
            println!("printed {code}: {said}{}", String::from_utf8_lossy(&got));
            std::process::exit(1);
        }
    }
    std::fs::remove_dir_all(&folder).unwrap();
    println!("no difference in {count} texts");
    for (kind, times) in seen {
        println!("{times:8} {kind}");
    }
}
