//! What the generator of files draws from a fixed seed.

use crate::house::House;
use crate::twin::Word;

/// A small random source (splitmix64).
pub struct Random(pub u64);

impl Random {
    fn next(&mut self) -> u64 {
        self.0 = self.0.wrapping_add(0x9E3779B97F4A7C15);
        let mut z = self.0;
        z = (z ^ (z >> 30)).wrapping_mul(0xBF58476D1CE4E5B9);
        z = (z ^ (z >> 27)).wrapping_mul(0x94D049BB133111EB);
        z ^ (z >> 31)
    }

    pub fn below(&mut self, limit: usize) -> usize {
        (self.next() % limit as u64) as usize
    }

    /// True once in so many throws.
    pub fn once_in(&mut self, throws: usize) -> bool {
        self.below(throws) == 0
    }

    pub fn choose<T: Copy>(&mut self, from: &[T]) -> T {
        from[self.below(from.len())]
    }

    /// Another party than this one.
    pub fn other(&mut self, parties: usize, party: usize) -> usize {
        (party + 1 + self.below(parties - 1)) % parties
    }

    pub fn shuffle<T>(&mut self, items: &mut [T]) {
        for at in (1..items.len()).rev() {
            items.swap(at, self.below(at + 1));
        }
    }
}

const RELATED: u32 = 0x5555_5555; // plain and inverse symbols

/// The word of a walk at random that visits no party twice, of at most this length; a pair has it. Most
/// steps are along a relation where there is one, as in a rule that somebody would write.
pub fn own_word(random: &mut Random, house: &House, length: usize) -> Word {
    let mut party = random.below(house.parties);
    let (mut visited, mut word) = (1u32 << party, Word::EMPTY);
    while word.length < length {
        let wanted = if random.once_in(4) { u32::MAX } else { RELATED };
        let mut steps = steps_from(house, party, visited, wanted);
        if steps.is_empty() {
            steps = steps_from(house, party, visited, u32::MAX);
        }
        if steps.is_empty() {
            break;
        }
        let (to, symbol) = random.choose(&steps);
        word.symbols[word.length] = symbol;
        word.length += 1;
        visited |= 1 << to;
        party = to;
    }
    word
}

/// The parties not visited, each with each wanted symbol that leads to it.
fn steps_from(house: &House, party: usize, visited: u32, wanted: u32) -> Vec<(usize, u8)> {
    let mut steps = Vec::new();
    for to in (0..house.parties).filter(|&to| visited >> to & 1 == 0) {
        let mask = house.graph[party][to] & wanted;
        steps.extend((0..32).filter(|&symbol| mask >> symbol & 1 != 0).map(|symbol| (to, symbol)));
    }
    steps
}
