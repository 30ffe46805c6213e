//! House files such as an archive might have. Everything random comes from fixed seeds.
//!
//! Eight kinds of relations, four languages, D 2, 3, 4, 6 and 31, four files of each: 640. About half of them are
//! regular: what is random in their kind is left out, and many parties are alike. The permits of a file are those of
//! one to four rules; in every second file one permit is then added or taken away by hand. Beside these a few files
//! that are hard or special by themselves, and 80 of these kinds in which some parties' relations are unknown.

use crate::house::{self, House, PERMIT_KIND, UNKNOWN};
use crate::random::{own_word, Random};
use crate::rules::{self, Term};

pub struct Archive {
    pub kind: &'static str,
    /// What is special: how the permits were made, or the fixed file's name.
    pub note: &'static str,
    pub parties: usize,
    pub labels: usize,
    pub language: u8,
    pub longest: usize,
    /// The permits are those of a rule list, so that the file is convertible by definition.
    pub by_rules: bool,
    pub file: Vec<u8>,
}

/// From, to, label; a permit has PERMIT_KIND, an unknown relation UNKNOWN and its label.
pub type Records = Vec<(usize, usize, usize)>;

pub const KINDS: [&str; 10] =
    ["hierarchy", "teams", "chains", "layers", "loans", "star", "mirror", "school", "fixed", "unknown"];
const WHOLE: usize = 8; // of the kinds: their relations are drawn, and all known
const PARTLY: usize = 9; // the kind with unknown relations
const LONGEST: [usize; 5] = [2, 3, 4, 6, 31];
const SIZES: [usize; 8] = [4, 8, 10, 12, 16, 20, 24, 32];
const NOTES: [&str; 4] = ["rules", "one added", "rules", "one taken"];
const MOST_SYMBOLS_OF_RULE: usize = 3;
const TRIES: usize = 50;
const SEEDS: u64 = 10_000; // more than a drawing takes

/// All files of a drawing, in an order that is shuffled once and for all, so that a part has something of everything. The
/// fixed ones are the same in each. Those with unknown relations come last, shuffled too.
pub fn all(draw: u64) -> Vec<Archive> {
    let mut archives = fixed();
    archives.extend((0..WHOLE).flat_map(|number| of_kind(number, draw)));
    Random(7).shuffle(&mut archives);
    let mut partly = of_kind(PARTLY, draw);
    Random(8).shuffle(&mut partly);
    archives.extend(partly);
    archives
}

/// The files of one kind in each language, with each D.
fn of_kind(number: usize, draw: u64) -> Vec<Archive> {
    let mut archives = Vec::new();
    for language in 0..4 {
        for longest in LONGEST {
            for (round, note) in NOTES.iter().enumerate() {
                let seed = ((number * 4 + language as usize) * 32 + longest) * 4 + round;
                archives.push(drawn(KINDS[number], note, language, longest, Random(1000 + SEEDS * draw + seed as u64)));
            }
        }
    }
    archives
}

fn drawn(kind: &'static str, note: &'static str, language: u8, longest: usize, mut random: Random) -> Archive {
    let (parties, labels) = (random.choose(&SIZES), 1 + random.below(3));
    let mut records = if kind == KINDS[PARTLY] {
        let whole = random.choose(&KINDS[..WHOLE]);
        let known = relations(whole, &mut random, parties, labels);
        with_lost_books(&mut random, parties, labels, known)
    } else {
        relations(kind, &mut random, parties, labels)
    };
    let house = house_of(parties, labels, language, longest, &records);
    let mut permits = permits_of_rules(&mut random, &house);
    let changed: Vec<(usize, usize)> = match note {
        "one added" => house.pairs().filter(|pair| !permits.contains(pair)).collect(),
        "one taken" => permits.clone(),
        _ => Vec::new(),
    };
    if !changed.is_empty() {
        let pair = random.choose(&changed);
        permits.retain(|&permit| permit != pair);
        if note == "one added" {
            permits.push(pair);
        }
    }
    add_permits(&mut records, &permits);
    let file = house::lay_out(parties, labels, language, longest, &records);
    Archive { kind, note, parties, labels, language, longest, by_rules: changed.is_empty(), file }
}

fn house_of(parties: usize, labels: usize, language: u8, longest: usize, records: &Records) -> House {
    let file = house::lay_out(parties, labels, language, longest, records);
    house::read(&file).unwrap_or_else(|number| panic!("file refused {number}"))
}

fn add_permits(records: &mut Records, permits: &[(usize, usize)]) {
    records.extend(permits.iter().map(|&(first, second)| (first, second, PERMIT_KIND as usize)));
    records.sort_unstable();
}

// ------------------------------------------------------------------------ permits

/// The pairs of one to four rules; not none and not all, if that can be had in a few tries.
fn permits_of_rules(random: &mut Random, house: &House) -> Vec<(usize, usize)> {
    let mut permits = Vec::new();
    for _ in 0..TRIES {
        let count = 1 + random.below(4);
        let terms: Vec<Term> = (0..count).map(|_| rule(random, house)).filter(|term| !term.is_empty()).collect();
        permits = house.pairs().filter(|&pair| rules::permits(house.pair(pair), &terms)).collect();
        if !permits.is_empty() && permits.len() < house.pairs().count() {
            break;
        }
    }
    permits
}

/// A term of one or two words, each of one to three symbols, that some pair meets; empty where no pair has a word.
fn rule(random: &mut Random, house: &House) -> Term {
    let most = MOST_SYMBOLS_OF_RULE.min(house.longest);
    let length = 1 + random.below(most);
    let mut term = vec![own_word(random, house, length)];
    if term[0].length == 0 {
        return Vec::new();
    }
    if random.once_in(2) {
        for _ in 0..TRIES {
            let length = 1 + random.below(most);
            let word = own_word(random, house, length);
            if word.length == 0 || word == term[0] {
                continue;
            }
            let both = vec![vec![term[0], word]];
            if house.pairs().any(|pair| rules::permits(house.pair(pair), &both)) {
                term.push(word);
                break;
            }
        }
    }
    term
}

// ------------------------------------------------------------------------ relations

fn relations(kind: &str, random: &mut Random, parties: usize, labels: usize) -> Records {
    let mut records = match kind {
        "hierarchy" => hierarchy(random, parties),
        "teams" => teams(random, parties),
        "chains" => chains(random, parties),
        "layers" => layers(random, parties),
        "loans" => loans(random, parties),
        "star" => star(random, parties),
        "mirror" => mirror(random, parties),
        "school" => school(random, parties),
        _ => panic!("no such kind: {kind}"),
    };
    for record in &mut records {
        record.2 %= labels;
    }
    records.retain(|&(from, to, _)| from != to);
    records.sort_unstable();
    records.dedup();
    records
}

/// 0: from each party to those below it. 1: deputies, from a party to the next of the same head. 2: a few advisers.
fn hierarchy(random: &mut Random, parties: usize) -> Records {
    let width = 2 + random.below(3);
    let head = |party: usize| (party - 1) / width;
    let mut records: Records = (1..parties).map(|party| (head(party), party, 0)).collect();
    records.extend((2..parties).filter(|&party| head(party) == head(party - 1)).map(|party| (party - 1, party, 1)));
    let advisers = if random.once_in(2) { 0 } else { parties / 4 };
    for _ in 0..advisers {
        let from = random.below(parties);
        records.push((from, random.other(parties, from), 2));
    }
    records
}

/// Teams of three to six. 0: each two of a team, both ways. 1: from a team's first to the next team's. 2: from the
/// first to each of its team.
fn teams(random: &mut Random, parties: usize) -> Records {
    let size = 3 + random.below(4);
    let first = |party: usize| party / size * size;
    let mut records = Records::new();
    for u in 0..parties {
        records.extend((0..parties).filter(|&v| first(u) == first(v)).map(|v| (u, v, 0)));
        records.push((first(u), u, 2));
        if first(u) == u && u + size < parties {
            records.push((u, u + size, 1));
        }
    }
    records
}

/// Chains of deposits. 0: from a party to the next of its chain. 1: from some, or from the chain's first, to the same
/// place of the next chain. 2: from the chain's first to its last.
fn chains(random: &mut Random, parties: usize) -> Records {
    let length = (2 + random.below(6)).min(parties);
    let regular = random.once_in(2);
    let mut records = Records::new();
    for party in 0..parties {
        let (first, last) = (party % length == 0, party % length == length - 1 || party + 1 == parties);
        if !last {
            records.push((party, party + 1, 0));
        }
        if party + length < parties && (regular && first || !regular && random.once_in(2)) {
            records.push((party, party + length, 1));
        }
        if first && party + length <= parties {
            records.push((party, party + length - 1, 2));
        }
    }
    records
}

/// Layers; from each party to one or two of the next layer, with the label of the layer or another. In regular
/// files to all of the next layer.
fn layers(random: &mut Random, parties: usize) -> Records {
    let width = (2 + random.below(5)).min(parties / 2);
    let regular = random.once_in(2);
    let mut records = Records::new();
    for party in 0..parties {
        let below = (party / width + 1) * width;
        if below < parties {
            let size = width.min(parties - below);
            if regular {
                records.extend((below..below + size).map(|to| (party, to, party / width)));
                continue;
            }
            for _ in 0..1 + random.below(2) {
                let label = if random.once_in(3) { random.below(3) } else { party / width };
                records.push((party, below + random.below(size), label));
            }
        }
    }
    records
}

/// Lenders and borrowers. 0: lends to. 1: has given back to. 2: vouches, among borrowers. In regular files each
/// borrower has one lender, and gives back to it.
fn loans(random: &mut Random, parties: usize) -> Records {
    let lenders = (parties / 3).max(1);
    let regular = random.once_in(2);
    let mut records = Records::new();
    for borrower in lenders..parties {
        if regular {
            let lender = borrower % lenders;
            records.extend([(lender, borrower, 0), (borrower, lender, 1)]);
            continue;
        }
        for _ in 0..1 + random.below(3) {
            let lender = random.below(lenders);
            records.push((lender, borrower, 0));
            if random.once_in(2) {
                records.push((borrower, lender, 1));
            }
        }
        if random.once_in(3) {
            records.push((borrower, lenders + random.below(parties - lenders), 2));
        }
    }
    records
}

/// 0: from the first party to all others. 1: from most others back. 2: from a party to the next, here and there.
fn star(random: &mut Random, parties: usize) -> Records {
    let regular = random.once_in(2);
    let mut records = Records::new();
    for party in 1..parties {
        records.push((0, party, 0));
        if regular || !random.once_in(4) {
            records.push((party, 0, 1));
        }
        if !regular && random.once_in(3) {
            records.push((party, party % (parties - 1) + 1, 2));
        }
    }
    records
}

/// Two halves with the same relations at random, labels 0 and 1. 2: from each party to its like, and in some
/// files back.
fn mirror(random: &mut Random, parties: usize) -> Records {
    let half = parties / 2;
    let back = random.once_in(2);
    let mut records = Records::new();
    for party in 0..half {
        for _ in 0..1 + random.below(2) {
            let (to, label) = (random.other(half, party), random.below(2));
            records.push((party, to, label));
            records.push((party + half, to + half, label));
        }
        records.push((party, party + half, 2));
        if back {
            records.push((party + half, party, 2));
        }
    }
    records
}

/// Teachers, classes and pupils. 0: teaches a class. 1: from a class to its pupils. 2: friends, among pupils.
fn school(random: &mut Random, parties: usize) -> Records {
    let teachers = (parties / 6).max(1);
    let classes = (parties / 5).max(1);
    let pupils = teachers + classes;
    let regular = random.once_in(2);
    let mut records = Records::new();
    for class in teachers..pupils {
        for _ in 0..1 + random.below(2) {
            records.push((random.below(teachers), class, 0));
        }
    }
    for pupil in pupils..parties {
        records.push((teachers + pupil % classes, pupil, 1));
        if !regular && random.once_in(2) {
            let friend = pupils + random.below(parties - pupils);
            records.push((pupil, friend, 2));
            records.push((friend, pupil, 2));
        }
    }
    records
}

/// The books of a few parties are lost: what isn't known of their relations with some others is unknown. Something
/// is unknown, if that can be had in a few tries.
fn with_lost_books(random: &mut Random, parties: usize, labels: usize, known: Records) -> Records {
    let mut records = known.clone();
    let books = 1 + random.below(1 + parties / 4);
    for book in 0..TRIES {
        if book >= books && records.len() > known.len() {
            break;
        }
        let (owner, every) = (random.below(parties), 1 + random.below(3));
        let others = (0..parties).filter(|&to| to != owner && to % every == 0);
        let unknown = others.flat_map(|to| (0..labels).map(move |label| (owner, to, label))).filter(|one| !known.contains(one));
        records.extend(unknown.map(|(from, to, label)| (from, to, UNKNOWN as usize + label)));
    }
    records.sort_unstable();
    records.dedup();
    records
}

// ------------------------------------------------------------------------ fixed files

fn fixed() -> Vec<Archive> {
    vec![
        // 76 bytes: no relation, so that every pair has the words of every other
        special("no relations", 32, 1, 3, 31, Records::new(), &[(0, 1)], false),
        // as many records as a file can have; one word permits all
        special("full", 32, 8, 0, 31, every_relation(32, 8), &every_pair(32), true),
        // all permits, where pairs have their words from far and near
        special("full ring", 32, 1, 2, 31, ring(32), &every_pair(32), true),
        random_graph("random", 2, 41),
        random_graph("random", 3, 42),
        twins("twins", 1, 6, 0, 43),
        twins("twins", 3, 31, 0, 44),
        twins("middle", 1, 6, 8, 45),
        twins("middle", 3, 31, 8, 46),
    ]
}

fn special(note: &'static str, parties: usize, labels: usize, language: u8, longest: usize, mut records: Records,
           permits: &[(usize, usize)], by_rules: bool) -> Archive {
    add_permits(&mut records, permits);
    let file = house::lay_out(parties, labels, language, longest, &records);
    Archive { kind: "fixed", note, parties, labels, language, longest, by_rules, file }
}

fn every_pair(parties: usize) -> Vec<(usize, usize)> {
    let others = |u: usize| (0..parties).filter(move |&v| v != u);
    (0..parties).flat_map(|u| others(u).map(move |v| (u, v))).collect()
}

pub fn every_relation(parties: usize, labels: usize) -> Records {
    every_pair(parties).into_iter().flat_map(|(u, v)| (0..labels).map(move |label| (u, v, label))).collect()
}

fn ring(parties: usize) -> Records {
    (0..parties).map(|u| (u, (u + 1) % parties, 0)).collect()
}

/// Two relations from each party, each to a party and with a label at random.
fn sparse(random: &mut Random, parties: usize, labels: usize) -> Records {
    let mut records = Records::new();
    for from in 0..parties {
        for _ in 0..2 {
            records.push((from, random.other(parties, from), random.below(labels)));
        }
    }
    records.sort_unstable();
    records.dedup();
    records
}

/// A graph at random with permits of rules, D 31.
fn random_graph(note: &'static str, language: u8, seed: u64) -> Archive {
    let mut random = Random(seed);
    let records = sparse(&mut random, 32, 2);
    let permits = permits_of_rules(&mut random, &house_of(32, 2, language, 31, &records));
    special(note, 32, 2, language, 31, records, &permits, true)
}

/// Sixteen parties, of which two that follow each other have the same relations with all others and none with each
/// other. A pair of the one is permitted, so that the same pair of the other is a rival.
fn twins(note: &'static str, language: u8, longest: usize, one: usize, seed: u64) -> Archive {
    let mut random = Random(seed);
    let other = one + 1;
    let mut records = sparse(&mut random, 16, 2);
    records.retain(|&(from, to, _)| from != other && to != other);
    let copies: Records = records.iter().filter(|record| record.0 == one).map(|&(_, to, label)| (other, to, label))
        .chain(records.iter().filter(|record| record.1 == one).map(|&(from, _, label)| (from, other, label))).collect();
    records.extend(copies);
    special(note, 16, 2, language, longest, records, &[(one, 15)], false)
}
