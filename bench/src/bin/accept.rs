//! As the check of readings: a sheet text and readings from two files.
use std::io::Write;

fn main() {
    let mut args = std::env::args().skip(1).map(|file| std::fs::read(file).unwrap());
    let (sheet, readings) = (args.next().unwrap(), args.next().unwrap());
    let (printed, told, status) = plain::answer(&sheet, &readings);
    std::io::stdout().write_all(&printed).unwrap();
    std::io::stderr().write_all(told.as_bytes()).unwrap();
    std::process::exit(status);
}
