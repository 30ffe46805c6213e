//! The product's search and next-word by hand, unverified: the same algorithm,
//! with references where the product copies.

pub const MOST_PARTIES: usize = 32;
pub const LONGEST_WORD: usize = 31;
const HIGHEST_SYMBOL: u8 = 31;

/// For each two parties the symbols that hold, as a mask.
pub type Graph = [[u32; MOST_PARTIES]; MOST_PARTIES];

/// A word; symbols past its length mean nothing.
#[derive(Clone, Copy, Debug, PartialEq)]
pub struct Word {
    pub length: usize,
    pub symbols: [u8; LONGEST_WORD],
}

impl Word {
    pub const EMPTY: Word = Word { length: 0, symbols: [0; LONGEST_WORD] };
}

/// What the searches of one pair have in common.
#[derive(Clone, Copy)]
pub struct Pair<'a> {
    pub graph: &'a Graph,
    pub parties: usize,
    pub first: usize,
    pub second: usize,
}

/// A path that was found: the mask of its parties, and the parties in order.
pub struct Path {
    pub visited: u32,
    pub parties: [u8; MOST_PARTIES],
}

/// One search. The first `fixed` symbols of the word are meant exactly, each later one is a floor.
struct Search<'a> {
    pair: Pair<'a>,
    word: &'a Word,
    fixed: usize,
    parties: [u8; MOST_PARTIES],
}

impl Search<'_> {
    /// Whether a step with these symbols may be taken at a place of the word.
    fn admits(&self, place: usize, mask: u32) -> bool {
        let symbol = self.word.symbols[place];
        if place < self.fixed {
            (mask >> symbol) & 1 != 0
        } else {
            mask >> symbol != 0
        }
    }

    /// From a party along the symbols from `place` on. Returns the visited mask, or 0 for none.
    fn party_search(&mut self, place: usize, party: usize, visited: u32) -> u32 {
        self.parties[place] = party as u8;
        if place + 1 == self.word.length {
            let second = self.pair.second;
            if !self.admits(place, self.pair.graph[party][second]) {
                return 0;
            }
            self.parties[place + 1] = second as u8;
            return visited | 1 << second;
        }
        self.candidate_search(place, party, visited)
    }

    /// Tries the parties that are not visited, lower first; the second party comes last of all.
    fn candidate_search(&mut self, place: usize, party: usize, visited: u32) -> u32 {
        let closed = visited | 1 << self.pair.second;
        for candidate in 0..self.pair.parties {
            if closed >> candidate & 1 == 0 && self.admits(place, self.pair.graph[party][candidate]) {
                let found = self.party_search(place + 1, candidate, visited | 1 << candidate);
                if found != 0 {
                    return found;
                }
            }
        }
        0
    }
}

/// The least path of the pair for a word with this many fixed symbols; the word is not empty.
pub fn search(pair: Pair, word: &Word, fixed: usize) -> Option<Path> {
    if word.length > pair.parties - 1 {
        return None;
    }
    let mut search = Search { pair, word, fixed, parties: [0; MOST_PARTIES] };
    let visited = search.party_search(0, pair.first, 1 << pair.first);
    if visited == 0 {
        None
    } else {
        Some(Path { visited, parties: search.parties })
    }
}

/// Whether the pair has the word.
pub fn has_word(pair: Pair, word: &Word) -> bool {
    search(pair, word, word.length).is_some()
}

/// The pair's first word after the given one, of at most `longest` symbols.
pub fn next_word(pair: Pair, longest: usize, given: &Word) -> Option<Word> {
    for place in (0..given.length).rev() {
        if given.symbols[place] < HIGHEST_SYMBOL {
            let mut wanted = Word { length: given.length, ..Word::EMPTY };
            wanted.symbols[..place].copy_from_slice(&given.symbols[..place]);
            wanted.symbols[place] = given.symbols[place] + 1;
            if search(pair, &wanted, place).is_some() {
                return Some(settled(pair, wanted, place));
            }
        }
    }
    for length in given.length + 1..=longest {
        let wanted = Word { length, ..Word::EMPTY };
        if search(pair, &wanted, 0).is_some() {
            return Some(settled(pair, wanted, 0));
        }
    }
    None
}

/// The least word that a search which succeeds stands for: each floor from `place` on is
/// raised until the search succeeds with that symbol fixed.
fn settled(pair: Pair, mut word: Word, place: usize) -> Word {
    for at in place..word.length {
        while search(pair, &word, at + 1).is_none() {
            word.symbols[at] += 1;
        }
    }
    word
}
