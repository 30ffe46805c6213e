//! Algorithm 1 of source document 000, plainly: it lists all simple paths of a pair. The words of each
//! pair are kept once listed, as the document suggests. answers.rs limits its time.

use crate::house::House;
use crate::twin::{Word, MOST_PARTIES};

const MOST_WORDS: usize = 4_000_000;

/// The listing had too many words to keep them all.
pub struct Stopped;

struct Listing<'a> {
    house: &'a House,
    listed: usize,
    words: Vec<Option<Vec<Word>>>,
}

/// The permitted pairs that are infeasible: failedAuthList. The file is convertible where it is empty.
pub fn failed(house: &House) -> Result<Vec<(usize, usize)>, Stopped> {
    let words = vec![None; MOST_PARTIES * MOST_PARTIES];
    let mut listing = Listing { house, listed: 0, words };
    let mut failed = Vec::new();
    for pair in house.pairs().filter(|&(a, b)| house.is_permitted(a, b)) {
        let labels = listing.path_labels(pair)?.to_vec();
        if labels.is_empty() || !listing.satisfying(&labels)?.is_empty() {
            failed.push(pair);
        }
    }
    Ok(failed)
}

impl Listing<'_> {
    /// The unpermitted pairs that have all these words: the cut of the sets SAT.
    fn satisfying(&mut self, labels: &[Word]) -> Result<Vec<(usize, usize)>, Stopped> {
        let house = self.house;
        let mut found = Vec::new();
        for pair in house.pairs().filter(|&(c, d)| !house.is_permitted(c, d)) {
            let own = self.path_labels(pair)?;
            if labels.iter().all(|word| own.binary_search_by_key(&key(word), key).is_ok()) {
                found.push(pair);
            }
        }
        Ok(found)
    }

    /// The words of all simple paths of the pair, each once.
    fn path_labels(&mut self, (first, second): (usize, usize)) -> Result<&[Word], Stopped> {
        let at = MOST_PARTIES * first + second;
        if self.words[at].is_none() {
            let mut words = Vec::new();
            self.visit(first, second, 1 << first, Word::EMPTY, &mut words)?;
            words.sort_by_key(key);
            words.dedup();
            self.words[at] = Some(words);
        }
        Ok(self.words[at].as_deref().unwrap_or_default())
    }

    /// Adds the words of the simple paths that begin with this word, and that come to `party` by it.
    fn visit(&mut self, party: usize, second: usize, visited: u32, word: Word,
             words: &mut Vec<Word>) -> Result<(), Stopped> {
        if party == second {
            self.listed += 1;
            if self.listed > MOST_WORDS {
                return Err(Stopped);
            }
            words.push(word);
            return Ok(());
        }
        if word.length == self.house.longest {
            return Ok(());
        }
        for to in (0..self.house.parties).filter(|&to| visited >> to & 1 == 0) {
            let mask = self.house.graph[party][to];
            for symbol in (0..32).filter(|&symbol| mask >> symbol & 1 != 0) {
                let mut longer = word;
                longer.symbols[word.length] = symbol;
                longer.length += 1;
                self.visit(to, second, visited | 1 << to, longer, words)?;
            }
        }
        Ok(())
    }
}

/// Words in word order; symbols past the length are 0 here.
fn key(word: &Word) -> (usize, [u8; crate::twin::LONGEST_WORD]) {
    (word.length, word.symbols)
}
