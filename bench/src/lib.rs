//! What docs/ say of sheet texts, equations, readings and checks, written once more in plain Rust without proofs.
//! `compare` holds it against the programs, and `time` measures both.

pub mod check;
pub mod equations;
pub mod lines;
pub mod readings;
pub mod sheet;

pub use check::{check, Verdict};
pub use sheet::{read, Fault, Sheet};

/// What is printed of a sheet text, and the exit status.
pub fn print_text(text: &[u8]) -> (Vec<u8>, i32) {
    match read(text) {
        Ok(sheet) => (equations::print(&sheet), 0),
        Err(fault) => (fault.line().into_bytes(), 1),
    }
}

/// What is printed of a sheet text and readings, what is told on standard error, and the exit status.
pub fn answer(sheet_text: &[u8], readings_text: &[u8]) -> (Vec<u8>, String, i32) {
    let sheet = match read(sheet_text) {
        Ok(sheet) => sheet,
        Err(fault) => return (fault.line().into_bytes(), String::new(), 1),
    };
    let readings = match readings::read(readings_text, sheet.variables) {
        Ok(readings) => readings,
        Err(told) => return (Vec::new(), told, 1),
    };
    let mut out = equations::print(&sheet);
    let (verdict, potentials) = check(&sheet, &readings);
    out.extend_from_slice(verdict.line().as_bytes());
    if verdict == Verdict::Holds {
        for (node, potential) in potentials.iter().enumerate() {
            out.extend_from_slice(format!("p{node} = {potential}\n").as_bytes());
        }
    }
    (out, String::new(), 0)
}
