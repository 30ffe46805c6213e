//! The replies of verdict, mining and permit as numbers, packed as docs/EXPORTS.md says.

use crate::house;
use crate::rules::{self, Obstacle};
use crate::twin::MOST_PARTIES;

pub const SCRATCH: usize = 1024;

/// The least low byte of a reply that is no refusal.
const FIRST_KIND: u64 = 128;
pub const CONVERTIBLE: u64 = FIRST_KIND;
pub const NO_WORD: u64 = FIRST_KIND + 1;
pub const RIVAL: u64 = FIRST_KIND + 2;
pub const NO: u64 = FIRST_KIND;
pub const YES: u64 = FIRST_KIND + 1;

fn place(number: usize, byte: u32) -> u64 {
    (number as u64) << (8 * byte)
}

/// A pair's two parties, from this byte of the reply on.
fn pair_at((first, second): (usize, usize), byte: u32) -> u64 {
    place(first, byte) | place(second, byte + 1)
}

pub fn verdict(file: &[u8]) -> u64 {
    let house = match house::read(file) {
        Ok(house) => house,
        Err(number) => return number as u64,
    };
    match rules::mine(&house) {
        Ok(mined) => CONVERTIBLE | place(rules::encode(&mined.terms).len(), 1),
        Err(Obstacle::NoWord(pair)) => NO_WORD | pair_at(pair, 1),
        Err(Obstacle::Rival(pair, rival)) => RIVAL | pair_at(pair, 1) | pair_at(rival, 3),
    }
}

pub fn mining(file: &[u8], scratch: &mut [u8], output: &mut [u8]) -> u64 {
    let house = match house::read(file) {
        Ok(house) => house,
        Err(number) => return number as u64,
    };
    if scratch.len() < SCRATCH {
        return 12;
    }
    let mined = match rules::mine(&house) {
        Ok(mined) => mined,
        Err(_) => return 13,
    };
    let listed = rules::encode(&mined.terms);
    scratch[..SCRATCH].fill(0);
    if output.len() < listed.len() {
        return 14;
    }
    output[..listed.len()].copy_from_slice(&listed);
    for (first, second) in house.pairs() {
        scratch[MOST_PARTIES * first + second] = (mined.permits[first] >> second & 1) as u8;
    }
    FIRST_KIND | place(listed.len(), 1)
}

pub fn permit(file: &[u8], listed: &[u8], first: usize, second: usize) -> u64 {
    let house = match house::read(file) {
        Ok(house) => house,
        Err(number) => return number as u64,
    };
    if !house.is_pair(first, second) {
        return 10;
    }
    match rules::decode(&house, listed) {
        Some(terms) => FIRST_KIND + rules::permits(house.pair((first, second)), &terms) as u64,
        None => 9,
    }
}
