//! As `rigcobase`: a sheet text from standard input, and its equations or its fault.
use std::io::{Read, Write};

fn main() {
    let mut text = Vec::new();
    std::io::stdin().take(65_537).read_to_end(&mut text).unwrap();
    let (printed, status) = plain::print_text(&text);
    std::io::stdout().write_all(&printed).unwrap();
    std::process::exit(status);
}
