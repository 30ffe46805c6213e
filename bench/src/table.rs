//! The table of a run: a row for each kind, what didn't end, and how many answers agree.

use crate::answers::{without_rival, Answer, Answers, CALLS};
use crate::archives::{Archive, KINDS};

const SHORT_WORDS: usize = 6;
const MEASURABLE: f64 = 1e3; // microseconds of the twin

/// A file and what each of the three answered; without the product's archive the product answered nothing.
pub struct Row<'a> {
    pub number: usize,
    pub archive: &'a Archive,
    pub product: Option<Answers>,
    pub twin: Answers,
    pub algorithm1: Answers,
}

impl Row<'_> {
    pub fn name(&self) -> String {
        let archive = self.archive;
        format!("{:>4}  {:<10}{:<14}{:>3}{:>3}{:>6}{:>4}", self.number, archive.kind, archive.note, archive.parties,
                archive.labels, archive.language, archive.longest)
    }

    /// The times of the verdict, in milliseconds.
    pub fn times(&self) -> String {
        let product = self.product.and_then(|answers| answers.calls[0]);
        [product, self.twin.calls[0], self.algorithm1.calls[0]].iter().map(|answer| match answer {
            Some(answer) => format!("{:>12.3}", answer.micros / 1e3),
            None => format!("{:>12}", "-"),
        }).collect()
    }

    fn product_call(&self, call: usize) -> Option<Answer> {
        self.product.and_then(|answers| answers.calls[call])
    }

    /// Whether the product was asked this call: mining and permit only where there is a list.
    fn asked(&self, call: usize) -> bool {
        self.product.map_or(false, |answers| answers.calls[call].is_some() || answers.over == Some(call))
    }

    /// The product's time over the twin's, and the twin's microseconds.
    fn ratio(&self, call: usize) -> Option<(f64, f64)> {
        let (product, twin) = (self.product_call(call)?, self.twin.calls[call]?);
        Some((product.micros / twin.micros, twin.micros))
    }

    /// Each thing that can be compared, and whether it agrees.
    pub fn agreements(&self) -> Vec<(String, bool)> {
        let mut found = Vec::new();
        for (who, answers) in [("product", self.product), ("twin", Some(self.twin))] {
            let answers = match answers {
                Some(answers) => answers,
                None => continue,
            };
            if let (true, Some(convertible)) = (self.archive.by_rules, answers.convertible()) {
                found.push((format!("{who}: permits of a rule list convert"), convertible));
            }
            for call in [1, 2] {
                if let Some(answer) = answers.calls[call] {
                    found.push((format!("{who}: {} and the file's permits", CALLS[call]), answer.right));
                }
            }
            if let (Some(verdict), Some(listing)) = (answers.calls[0], self.algorithm1.calls[0]) {
                found.push((format!("{who}: verdict and Algorithm 1"), without_rival(verdict.number) == listing.number));
            }
        }
        for (call, name) in CALLS.iter().enumerate() {
            if let (Some(product), Some(twin)) = (self.product_call(call), self.twin.calls[call]) {
                found.push((format!("{name} of product and twin"), product.number == twin.number));
            }
        }
        found
    }
}

// ------------------------------------------------------------------------ printing

pub fn print(rows: &[Row], limit: f64) {
    println!("Answered within {limit} s of processor time; ratios are the product's time over the twin's.");
    for (call, name) in CALLS.iter().enumerate() {
        println!();
        println!("{name:<10}{:>28}{:>10}{:>20}{:>18}{:>27}", "answered by   ", "", "D 6 or less  ", "ratio   ", "ratio, twin 1 ms or more");
        println!("{:<10}{:>6}{:>9}{:>6}{:>7}{:>10}{:>10}{:>10}{:>9}{:>9}{:>9}{:>9}{:>9}", "kind", "files", "product", "twin", "alg. 1",
                 "over 1 s", "over 1 s", "over .5 s", "median", "worst", "files", "mean", "worst");
        if call == 0 {
            for kind in KINDS {
                print_row(kind, &rows.iter().filter(|row| row.archive.kind == kind).collect::<Vec<_>>(), call);
            }
        }
        print_row("total", &rows.iter().collect::<Vec<_>>(), call);
    }
    let over: Vec<&Row> = rows.iter().filter(|row| row.product.map_or(false, |answers| answers.over.is_some())).collect();
    if !over.is_empty() {
        println!();
        println!("Not answered by the product within {limit} s:");
        println!("file  kind      permits         n  L  lang   D  call");
        for row in over {
            println!("{}  {}", row.name(), CALLS[row.product.and_then(|answers| answers.over).unwrap_or(0)]);
        }
    }
}

fn print_row(name: &str, rows: &[&Row], call: usize) {
    if rows.is_empty() {
        return;
    }
    let files = rows.iter().filter(|row| row.product.is_none() || row.asked(call)).count();
    let count = |answers: &dyn Fn(&Row) -> bool| rows.iter().filter(|row| answers(row)).count();
    let slow = |micros: f64, longest: usize| count(&|row| {
        row.asked(call) && row.archive.longest <= longest && row.product_call(call).map_or(true, |answer| answer.micros > micros)
    });
    let listed = if call == 0 { count(&|row| row.algorithm1.calls[0].is_some()).to_string() } else { "-".into() };
    let mut ratios: Vec<f64> = rows.iter().filter_map(|row| row.ratio(call)).map(|(ratio, _)| ratio).collect();
    let measurable: Vec<f64> = rows.iter().filter_map(|row| row.ratio(call))
        .filter(|&(_, twin)| twin >= MEASURABLE).map(|(ratio, _)| ratio).collect();
    println!("{name:<10}{files:>6}{:>9}{:>6}{listed:>7}{:>10}{:>10}{:>10}{:>9}{:>9}{:>9}{:>9}{:>9}",
             count(&|row| row.product_call(call).is_some()), count(&|row| row.twin.calls[call].is_some()),
             slow(1e6, usize::MAX), slow(1e6, SHORT_WORDS), slow(5e5, SHORT_WORDS),
             shown(median(&mut ratios)), shown(worst(&ratios)), measurable.len(),
             shown(geometric_mean(&measurable)), shown(worst(&measurable)));
}

fn shown(number: Option<f64>) -> String {
    number.map_or("-".into(), |number| format!("{number:.2}"))
}

pub fn median(ratios: &mut [f64]) -> Option<f64> {
    ratios.sort_by(f64::total_cmp);
    ratios.get(ratios.len() / 2).copied()
}

fn worst(ratios: &[f64]) -> Option<f64> {
    ratios.iter().copied().reduce(f64::max)
}

fn geometric_mean(ratios: &[f64]) -> Option<f64> {
    let sum: f64 = ratios.iter().map(|ratio| ratio.ln()).sum();
    if ratios.is_empty() { None } else { Some((sum / ratios.len() as f64).exp()) }
}
