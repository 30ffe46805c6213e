//! The product's verdict, mining and permit by hand, unverified: the same algorithm over twin.rs.

use crate::house::{House, Permits};
use crate::twin::{has_word, next_word, Pair, Word, LONGEST_WORD, MOST_PARTIES};

pub type Term = Vec<Word>;

/// A convertible file's terms, and the pairs that they permit.
pub struct Mined {
    pub terms: Vec<Term>,
    pub permits: Permits,
}

/// The first permitted pair, in pair order, that no list can permit alone.
pub enum Obstacle {
    NoWord((usize, usize)),
    Rival((usize, usize), (usize, usize)),
}

/// Takes the permitted pairs in order and makes a term for each that no earlier term permits.
pub fn mine(house: &House) -> Result<Mined, Obstacle> {
    let mut mined = Mined { terms: Vec::new(), permits: [0; MOST_PARTIES] };
    for (first, second) in house.pairs() {
        if house.is_permitted(first, second) && mined.permits[first] >> second & 1 == 0 {
            let term = term_for(house, (first, second))?;
            mark(house, &term, &mut mined.permits);
            mined.terms.push(term);
        }
    }
    Ok(mined)
}

/// The pair's first word, and for each unpermitted pair that meets the term so far the first that it lacks.
fn term_for(house: &House, parties: (usize, usize)) -> Result<Term, Obstacle> {
    let pair = house.pair(parties);
    let first = next_word(pair, house.longest, &Word::EMPTY).ok_or(Obstacle::NoWord(parties))?;
    let mut term = vec![first];
    for other in house.pairs() {
        if !house.is_permitted(other.0, other.1) && meets(house.pair(other), &term) {
            match first_lacked(pair, house.pair(other), house.longest) {
                Some(word) => term.push(word),
                None => return Err(Obstacle::Rival(parties, other)),
            }
        }
    }
    Ok(term)
}

/// The first word of the pair that the other lacks.
fn first_lacked(pair: Pair, other: Pair, longest: usize) -> Option<Word> {
    let mut word = next_word(pair, longest, &Word::EMPTY)?;
    while has_word(other, &word) {
        word = next_word(pair, longest, &word)?;
    }
    Some(word)
}

fn meets(pair: Pair, term: &[Word]) -> bool {
    term.iter().all(|word| has_word(pair, word))
}

/// Marks the pairs that meet the term.
fn mark(house: &House, term: &[Word], permits: &mut Permits) {
    for (first, second) in house.pairs() {
        if permits[first] >> second & 1 == 0 && meets(house.pair((first, second)), term) {
            permits[first] |= 1 << second;
        }
    }
}

/// The bytes of a rule list.
pub fn encode(terms: &[Term]) -> Vec<u8> {
    let mut listed = two_bytes(terms.len()).to_vec();
    for term in terms {
        listed.extend(two_bytes(term.len()));
        for word in term {
            listed.push(word.length as u8);
            listed.extend(&word.symbols[..word.length]);
        }
    }
    listed
}

fn two_bytes(number: usize) -> [u8; 2] {
    [number as u8, (number >> 8) as u8]
}

/// The terms of a rule list, or none where its bytes break the layout or a symbol is not the house's.
pub fn decode(house: &House, listed: &[u8]) -> Option<Vec<Term>> {
    let mut rest = listed;
    let mut terms = Vec::new();
    for _ in 0..take_number(&mut rest)? {
        let count = take_number(&mut rest)?;
        if count == 0 {
            return None;
        }
        let words: Option<Term> = (0..count).map(|_| take_word(house, &mut rest)).collect();
        terms.push(words?);
    }
    rest.is_empty().then_some(terms)
}

fn take_number(rest: &mut &[u8]) -> Option<usize> {
    let number = u16::from_le_bytes(rest.get(..2)?.try_into().ok()?);
    *rest = &rest[2..];
    Some(number as usize)
}

fn take_word(house: &House, rest: &mut &[u8]) -> Option<Word> {
    let (&length, after) = rest.split_first()?;
    let length = length as usize;
    if length == 0 || length > house.longest.min(LONGEST_WORD) || after.len() < length {
        return None;
    }
    let (symbols, after) = after.split_at(length);
    if !symbols.iter().all(|&symbol| house.is_symbol(symbol)) {
        return None;
    }
    *rest = after;
    let mut word = Word { length, ..Word::EMPTY };
    word.symbols[..length].copy_from_slice(symbols);
    Some(word)
}

/// Whether the list permits the pair.
pub fn permits(pair: Pair, terms: &[Term]) -> bool {
    terms.iter().any(|term| meets(pair, term))
}

/// A line for each term: its words joined by " & ", their symbols by ".".
pub fn text(terms: &[Term]) -> String {
    let word_text = |word: &Word| {
        let symbols: Vec<String> = word.symbols[..word.length].iter().map(|symbol| format!("{symbol:02X}")).collect();
        symbols.join(".")
    };
    let line = |term: &Term| term.iter().map(word_text).collect::<Vec<_>>().join(" & ") + "\n";
    terms.iter().map(line).collect()
}
