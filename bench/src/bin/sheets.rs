//! Writes sheet texts of one shape and growing size, with readings that hold: `sheets FOLDER`.
//! Each has a ring of branches between its nodes, half as many earths, and a law of four terms to each row.
use std::fmt::Write;

fn main() {
    let folder = std::env::args().nth(1).expect("sheets FOLDER");
    std::fs::create_dir_all(&folder).unwrap();
    for nodes in [100, 200, 400, 700, 1000] {
        let rows = nodes + nodes / 2;
        let mut text = String::new();
        for _ in 0..nodes {
            text.push_str("N 1\n");
        }
        writeln!(text, "V {}", 2 * rows).unwrap();
        for k in 0..nodes {
            writeln!(text, "B {} {} {} {}", 2 * k, 2 * k + 1, k, (k + 1) % nodes).unwrap();
        }
        for k in nodes..rows {
            writeln!(text, "E {} {} {}", 2 * k, 2 * k + 1, k - nodes).unwrap();
        }
        for k in 0..rows {
            if text.len() > 65_000 {
                break;
            }
            writeln!(text, "L 1 0 {} 2 0 {} 3 1 {}", 2 * k, 2 * k + 1, 2 * k).unwrap();
        }
        let readings = "0 0\n".repeat(2 * rows);
        std::fs::write(format!("{folder}/{nodes}.sheet"), text).unwrap();
        std::fs::write(format!("{folder}/{nodes}.readings"), readings).unwrap();
    }
}
