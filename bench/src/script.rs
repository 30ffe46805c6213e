//! The calls path and next-word from a script on standard input, so that the
//! twin can be held against the same reckoning as the product. The script's
//! frames are described in tests/script.py.

use crate::house;
use crate::twin::{self, Word, LONGEST_WORD};
use std::io::{Read, Write};

const HEADER: usize = 24;
const GUARD: usize = 16;
const NEXT_WORD_ROOM: usize = 31;

enum Reply {
    Refused(u8),
    Lacking,
    Written(Vec<u8>),
}

/// Prints the reply of each frame; other calls than path and next-word are passed over.
pub fn run() {
    let mut script = Vec::new();
    std::io::stdin().read_to_end(&mut script).expect("the script can be read");
    let mut text = Vec::new();
    let mut at = 0;
    while at + HEADER <= script.len() {
        let number = |index: usize| {
            let from = at + 4 + 4 * index;
            u32::from_le_bytes(script[from..from + 4].try_into().unwrap()) as usize
        };
        let (file, given, output, scratch) = (number(0), number(1), number(2), number(3));
        let call = script[at];
        let (first, second) = (script[at + 1] as usize, script[at + 2] as usize);
        let guards = if call == b'p' || call == b'n' { 2 * GUARD } else { 0 };
        at += HEADER;
        let file_bytes = &script[at..at + file];
        at += file;
        let given_bytes = &script[at..at + given];
        at += given;
        let mut space = script[at..at + guards + output].to_vec();
        at += guards + output + scratch;
        if guards != 0 {
            let reply = reply_of(call, file_bytes, first, second, given_bytes, output);
            show(call, reply, &mut space, &mut text);
        }
    }
    std::io::stdout().write_all(&text).expect("the replies can be written");
}

fn reply_of(call: u8, file: &[u8], first: usize, second: usize, given: &[u8], room: usize) -> Reply {
    let house = match house::read(file) {
        Ok(house) => house,
        Err(number) => return Reply::Refused(number),
    };
    if !house.is_pair(first, second) {
        return Reply::Refused(10);
    }
    let length = given[0] as usize;
    if length > house.longest || !given[1..1 + length].iter().all(|&symbol| house.is_symbol(symbol)) {
        return Reply::Refused(11);
    }
    let mut word = Word { length, ..Word::EMPTY };
    word.symbols.copy_from_slice(&given[1..1 + LONGEST_WORD]);
    let pair = house.pair((first, second));
    if call == b'p' {
        if length == 0 {
            return Reply::Refused(11);
        }
        if room < length + 1 {
            return Reply::Refused(14);
        }
        return match twin::search(pair, &word, length) {
            Some(path) => Reply::Written(path.parties[..path.visited.count_ones() as usize].to_vec()),
            None => Reply::Lacking,
        };
    }
    if room < NEXT_WORD_ROOM {
        return Reply::Refused(14);
    }
    match twin::next_word(pair, house.longest, &word) {
        Some(next) => Reply::Written(next.symbols[..next.length].to_vec()),
        None => Reply::Lacking,
    }
}

/// Adds the two lines of a reply to the text.
fn show(call: u8, reply: Reply, space: &mut [u8], text: &mut Vec<u8>) {
    text.extend(if call == b'p' { &b"path "[..] } else { &b"next-word "[..] });
    match reply {
        Reply::Refused(number) => text.extend(format!("refused {number}\n").bytes()),
        Reply::Lacking => text.extend(b"none\n"),
        Reply::Written(bytes) => {
            text.extend(format!("{}\n", bytes.len()).bytes());
            space[GUARD..GUARD + bytes.len()].copy_from_slice(&bytes);
        }
    }
    text.extend(b"output ");
    for byte in space {
        text.extend(format!("{byte:02X}").bytes());
    }
    text.push(b'\n');
}
