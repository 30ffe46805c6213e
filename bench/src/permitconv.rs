//! The program permitconv by the twin, on standard input.

use crate::{house, reply, rules};
use std::io::{Read, Write};

const PROGRAM_INPUT: u64 = 44713;
const PROGRAM_LIST: usize = 65536;

pub fn run() {
    let mut file = Vec::new();
    std::io::stdin().take(PROGRAM_INPUT).read_to_end(&mut file).expect("standard input can be read");
    std::io::stdout().write_all(text_of(&file).as_bytes()).expect("the text can be written");
}

/// What permitconv prints for these bytes.
fn text_of(file: &[u8]) -> String {
    let verdict = reply::verdict(file);
    let party = |byte: u32| verdict >> (8 * byte) & 255;
    match verdict & 255 {
        reply::CONVERTIBLE => {
            let house = house::read(file).unwrap_or_else(|number| panic!("file refused {number}"));
            let length = (verdict >> 8) as usize;
            let terms = rules::mine(&house).map_or(Vec::new(), |mined| mined.terms);
            let rest = if length > PROGRAM_LIST { "refused 14\n".into() } else { rules::text(&terms) };
            format!("convertible {length}\n{rest}")
        }
        reply::NO_WORD => format!("not-convertible {} {} no-word\n", party(1), party(2)),
        reply::RIVAL => format!("not-convertible {} {} rival {} {}\n", party(1), party(2), party(3), party(4)),
        number => format!("refused {number}\n"),
    }
}
