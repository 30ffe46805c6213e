//! The word test by the permit call: how many nanoseconds one test takes, in a table of its own.
//!
//! A list may say a word again and again. A pair that lacks it is tested for it once in each term, and one that has it each
//! time that it stands in a term. So one call makes many tests; the time of a call with one test is taken off.

use crate::archives::{every_relation, Records};
use crate::house;
use crate::random::Random;
use crate::rules::{self, Term};
use crate::table::median;
use crate::twin::Word;
use crate::{product, reply, timing};

/// Parties and symbols. A path visits no party twice, so that 16 parties have no word of 31 symbols.
const SIZES: [(usize, usize); 5] = [(16, 3), (16, 8), (32, 3), (32, 8), (32, 31)];
const FILES: u64 = 8; // of each row
const SEED: u64 = 60;
const TESTS: usize = 200; // of a call
const RUNS: usize = 9;
const SHORT: usize = 3; // symbols that the twin can walk in every way in a dense file

const LANGUAGE: u8 = 0;
const LABELS: usize = 4;
const COMMON: usize = 2; // labels 0 and 1 are on most relations
const INNER: usize = 2; // on none from the pair's first party, and on none to its second
const ASIDE: usize = 3; // on one from the first party, to a party from which no inner one leads

type Permit = fn(&[u8], &[u8], usize, usize) -> u64;

/// The answer of a test, and where a search finds it.
#[derive(Clone, Copy, PartialEq)]
enum Answer {
    /// No relation into the second party has the word's last symbol.
    NoNearSecond,
    /// No relation from the first party has the word's first symbol.
    NoAtFirst,
    /// The first symbol leads from the first party to one from which the second symbol leads nowhere.
    NoNearFirst,
    Yes,
}

const ANSWERS: [Answer; 4] = [Answer::NoNearSecond, Answer::NoAtFirst, Answer::NoNearFirst, Answer::Yes];

impl Answer {
    fn name(self) -> &'static str {
        match self {
            Answer::NoNearSecond => "no near the second",
            Answer::NoAtFirst => "no at the first",
            Answer::NoNearFirst => "no near the first",
            Answer::Yes => "yes",
        }
    }

    fn reply(self) -> u64 {
        if self == Answer::Yes { reply::YES } else { reply::NO }
    }

    /// The word with this answer, made from one that the pair has.
    fn word(self, own: Word) -> Word {
        let mut word = own;
        match self {
            Answer::NoNearSecond => word.symbols[own.length - 1] = plain(INNER),
            Answer::NoAtFirst => word.symbols[0] = plain(INNER),
            Answer::NoNearFirst => word.symbols[..2].copy_from_slice(&[plain(ASIDE), plain(INNER)]),
            Answer::Yes => {}
        }
        word
    }

    /// A list for which the permit call makes so many tests.
    fn list(self, word: Word, tests: usize) -> Vec<u8> {
        let terms: Vec<Term> = if self == Answer::Yes { vec![vec![word; tests]] } else { vec![vec![word]; tests] };
        rules::encode(&terms)
    }
}

/// The symbol of a relation with this label.
fn plain(label: usize) -> u8 {
    4 * label as u8
}

// ------------------------------------------------------------------------ files

/// A file and a pair, with a word that the pair has.
struct Case {
    file: Vec<u8>,
    first: usize,
    second: usize,
    own: Word,
}

/// The parties stand in a random order, and the pair's path goes along it from its start. In a dense file each two parties have
/// all common relations; in a sparse one each party but the last has one to the next and one to a party at random.
fn case(dense: bool, parties: usize, symbols: usize, seed: u64) -> Case {
    let mut random = Random(seed);
    let mut order: Vec<usize> = (0..parties).collect();
    random.shuffle(&mut order);
    let mut own = Word { length: symbols, ..Word::EMPTY };
    let mut records = Records::new();
    for (at, step) in order.windows(2).enumerate() {
        let label = random.below(COMMON);
        if at < symbols {
            own.symbols[at] = plain(label);
        }
        records.push((step[0], step[1], label));
        records.push((step[0], random.other(parties, step[0]), random.below(COMMON)));
        if at % 2 == 1 && at + 1 != symbols {
            records.push((step[0], step[1], INNER));
        }
    }
    records.push((order[0], order[2], ASIDE));
    if dense {
        records.extend(every_relation(parties, COMMON));
    }
    records.sort_unstable();
    records.dedup();
    let file = house::lay_out(parties, LABELS, LANGUAGE, symbols, &records);
    Case { file, first: order[0], second: order[symbols], own }
}

// ------------------------------------------------------------------------ the table

/// Nanoseconds of one test: the mean over the files, and of some runs the median. None where a reply is not the row's.
fn measured(permit: Permit, cases: &[Case], answer: Answer) -> Option<f64> {
    let lists = |tests: usize| cases.iter().map(|case| answer.list(answer.word(case.own), tests)).collect::<Vec<_>>();
    let (one, many) = (lists(1), lists(TESTS));
    let seconds = |lists: &[Vec<u8>]| {
        let start = timing::used();
        let right = cases.iter().zip(lists).all(|(case, list)| permit(&case.file, list, case.first, case.second) == answer.reply());
        right.then_some((timing::used() - start).as_secs_f64())
    };
    let tests = cases.len() * (TESTS - 1);
    let runs: Option<Vec<f64>> = (0..RUNS).map(|_| Some((seconds(&many)? - seconds(&one)?) * 1e9 / tests as f64)).collect();
    median(&mut runs?)
}

/// A figure as text; the inner none is a wrong reply, the outer one where nobody was asked.
fn shown(figure: Option<Option<f64>>) -> String {
    match figure {
        Some(Some(time)) => format!("{time:.0}"),
        Some(None) => "wrong".into(),
        None => "-".into(),
    }
}

/// Prints the table; the last line counts the figures whose replies are those of their rows. Says whether all are.
pub fn run() -> bool {
    println!("Nanoseconds of a word test, by permit calls with {TESTS} tests each.");
    println!();
    println!("{:<8}{:>4}{:>9}  {:<20}{:>12}{:>12}", "graph", "n", "symbols", "answer", "product", "twin");
    let (mut passed, mut failed) = (0, 0);
    for (graph, dense) in [("sparse", false), ("dense", true)] {
        for (parties, symbols) in SIZES {
            let cases: Vec<Case> = (0..FILES).map(|file| case(dense, parties, symbols, SEED + file)).collect();
            for answer in ANSWERS {
                let endless = dense && symbols > SHORT && answer == Answer::NoNearSecond; // for the twin, which tries every path
                let asked: [(bool, Permit); 2] = [(product::LINKED, product::permit), (!endless, reply::permit)];
                let figures = asked.map(|(asked, permit)| asked.then(|| measured(permit, &cases, answer)));
                passed += figures.iter().flatten().filter(|figure| figure.is_some()).count();
                failed += figures.iter().flatten().filter(|figure| figure.is_none()).count();
                println!("{graph:<8}{parties:>4}{symbols:>9}  {:<20}{:>12}{:>12}", answer.name(), shown(figures[0]), shown(figures[1]));
            }
        }
    }
    println!();
    println!("{passed} passed, {failed} failed");
    failed == 0
}
