//! House files: reading with the check of documents 01 and 02, both editions, and laying out in edition 1.

use crate::twin::{Graph, Pair, MOST_PARTIES};

pub const PERMIT_KIND: u8 = 0xFF;
/// And a label: the kind byte of an unknown relation.
pub const UNKNOWN: u8 = 0x80;
const MOST_RECORDS: usize = 8928;

/// What the searches need of an accepted file.
pub struct House {
    pub parties: usize,
    pub labels: usize,
    pub language: u8,
    pub longest: usize,
    pub graph: Graph,
    pub permits: Permits,
}

/// Bit v of mask u stands for the permit of (u, v).
pub type Permits = [u32; MOST_PARTIES];

/// Bit l of an entry stands for label l from the row's party to the column's.
type Relations = [[u8; MOST_PARTIES]; MOST_PARTIES];

/// What the chains of an accepted file say.
struct Said {
    known: Relations,
    unknown: Relations,
    permits: Permits,
}

impl House {
    /// Whether the symbol's label is below L and its kind one of the language's.
    pub fn is_symbol(&self, symbol: u8) -> bool {
        ((symbol / 4) as usize) < self.labels && kinds_of(self.language)[(symbol % 4) as usize]
    }

    pub fn is_pair(&self, first: usize, second: usize) -> bool {
        first < self.parties && second < self.parties && first != second
    }

    pub fn is_permitted(&self, first: usize, second: usize) -> bool {
        self.permits[first] >> second & 1 != 0
    }

    /// The pairs in pair order.
    pub fn pairs(&self) -> impl Iterator<Item = (usize, usize)> {
        let parties = self.parties;
        (0..parties).flat_map(move |u| (0..parties).filter(move |&v| v != u).map(move |v| (u, v)))
    }

    /// What the searches of a pair need.
    pub fn pair(&self, (first, second): (usize, usize)) -> Pair<'_> {
        Pair { graph: &self.graph, parties: self.parties, first, second }
    }
}

/// Which kinds a language has: plain, absent, inverse, absent inverse.
fn kinds_of(language: u8) -> [bool; 4] {
    [true, language & 1 != 0, language & 2 != 0, language == 3]
}

fn two_bytes(file: &[u8], at: usize) -> usize {
    file[at] as usize + 256 * file[at + 1] as usize
}

/// The house that the file says, or the number of its refusal.
pub fn read(file: &[u8]) -> Result<House, u8> {
    if file.len() < 8 {
        return Err(1);
    }
    let (parties, labels, language, longest) =
        (file[1] as usize, file[2] as usize, file[3], file[4] as usize);
    let records = two_bytes(file, 6);
    let in_range = (1..=2).contains(&file[0])
        && (1..=32).contains(&parties)
        && (1..=8).contains(&labels)
        && language <= 3
        && (1..=31).contains(&longest)
        && file[5] == 0
        && records <= MOST_RECORDS;
    if !in_range {
        return Err(2);
    }
    if file.len() != record_place(file, records + 1) {
        return Err(1);
    }
    let said = follow(file, parties, labels, records)?;
    let graph = enlarge(&said, parties, labels, language);
    Ok(House { parties, labels, language, longest, graph, permits: said.permits })
}

/// Where a record begins. In edition 2 the owner follows the four bytes of edition 1.
fn record_place(file: &[u8], number: usize) -> usize {
    let size = if file[0] == 2 { 5 } else { 4 };
    8 + 2 * file[1] as usize + size * (number - 1)
}

/// Follows the chains of all parties in order.
fn follow(file: &[u8], parties: usize, labels: usize, records: usize) -> Result<Said, u8> {
    let none = [[0u8; MOST_PARTIES]; MOST_PARTIES];
    let mut said = Said { known: none, unknown: none, permits: [0; MOST_PARTIES] };
    let mut reached = [false; MOST_RECORDS + 1];
    let mut count = 0;
    for party in 0..parties {
        let mut link = two_bytes(file, 8 + 2 * party);
        while link != 0 {
            if link > records {
                return Err(3);
            }
            if reached[link] {
                return Err(4);
            }
            reached[link] = true;
            count += 1;
            let at = record_place(file, link);
            let (target, kind) = (file[at] as usize, file[at + 1]);
            if file[0] == 2 && file[at + 4] as usize != party {
                return Err(15);
            }
            if target >= parties || target == party {
                return Err(6);
            }
            if kind == PERMIT_KIND {
                if said.permits[party] >> target & 1 != 0 {
                    return Err(8);
                }
                said.permits[party] |= 1 << target;
            } else {
                say_relation(&mut said, labels, party, target, kind)?;
            }
            link = two_bytes(file, at + 2);
        }
    }
    if count < records {
        return Err(5);
    }
    Ok(said)
}

/// Adds a relation, known or unknown by its kind byte.
fn say_relation(said: &mut Said, labels: usize, party: usize, target: usize, kind: u8) -> Result<(), u8> {
    let label = kind % UNKNOWN;
    if label as usize >= labels {
        return Err(7);
    }
    let (own, opposite) = if kind < UNKNOWN { (&mut said.known, &said.unknown) } else { (&mut said.unknown, &said.known) };
    if own[party][target] >> label & 1 != 0 {
        return Err(8);
    }
    if opposite[party][target] >> label & 1 != 0 {
        return Err(16);
    }
    own[party][target] |= 1 << label;
    Ok(())
}

/// For each two parties the symbols of the language that hold. Of an unknown relation none does.
fn enlarge(said: &Said, parties: usize, labels: usize, language: u8) -> Graph {
    let kinds = kinds_of(language);
    let mut graph = [[0u32; MOST_PARTIES]; MOST_PARTIES];
    for u in 0..parties {
        for v in 0..parties {
            if u != v {
                for label in 0..labels {
                    let has = |relations: &Relations, from: usize, to: usize| relations[from][to] >> label & 1 != 0;
                    let (out, back) = (has(&said.known, u, v), has(&said.known, v, u));
                    let absent = !out && !has(&said.unknown, u, v);
                    let absent_back = !back && !has(&said.unknown, v, u);
                    for (kind, holds) in [out, absent, back, absent_back].into_iter().enumerate() {
                        if kinds[kind] && holds {
                            graph[u][v] |= 1 << (4 * label + kind);
                        }
                    }
                }
            }
        }
    }
    graph
}

/// The bytes of a file with these relations (from, to, label), each chain in the order given.
/// A permit stands among them with PERMIT_KIND as its label, an unknown relation with UNKNOWN and its label.
pub fn lay_out(parties: usize, labels: usize, language: u8, longest: usize,
               relations: &[(usize, usize, usize)]) -> Vec<u8> {
    let mut heads = vec![0usize; parties];
    let mut records = Vec::new();
    for (index, &(from, to, label)) in relations.iter().enumerate().rev() {
        records.push([to as u8, label as u8, heads[from] as u8, (heads[from] >> 8) as u8]);
        heads[from] = index + 1;
    }
    records.reverse();
    let count = records.len();
    let mut file = vec![1, parties as u8, labels as u8, language, longest as u8, 0,
                        count as u8, (count >> 8) as u8];
    for head in heads {
        file.extend([head as u8, (head >> 8) as u8]);
    }
    for record in records {
        file.extend(record);
    }
    file
}
