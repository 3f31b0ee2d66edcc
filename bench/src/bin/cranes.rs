//! The plain model on the example sheets: `cranes FOLDER`.
use std::fs::read;

fn main() {
    let folder = std::env::args().nth(1).expect("cranes FOLDER");
    for name in ["hoist", "trolley", "travel"] {
        let at = |end: &str| read(format!("{folder}/{name}.{end}")).unwrap();
        let sheet = at("sheet");
        assert_eq!(plain::print_text(&sheet).0, at("out"), "{name}");
        for end in ["holds", "fails"] {
            let (printed, _, _) = plain::answer(&sheet, &at(&format!("{end}.readings")));
            assert_eq!(printed, at(&format!("{end}.out")), "{name} {end}");
        }
    }
    println!("the examples are printed as their files say");
}
