//! The product's three exports against the twin by hand and Algorithm 1 of document 000, on files made from fixed seeds.
//!
//!     bench [--limit SECONDS] [--part K] [--kind NAME] [--draw N] [--files]    the table; bench/README.md says what it shows
//!     bench --write FOLDER [--draw N]                                          writes the files, each by its number
//!     bench --words                                                            the table of word tests, and nothing else
//!     bench script                                                             path and next-word by the twin, from a script
//!     bench permitconv                                                         the program permitconv by the twin
//!
//! build.sh builds it with or without the product's archive. `bench answer WHO LIMIT` is how it starts itself.

#![allow(unknown_lints, unexpected_cfgs)] // build.sh sets the cfg `product`
#![allow(dead_code)] // modules are shared with lib.rs

mod algorithm1;
mod answers;
mod archives;
mod house;
mod permitconv;
mod product;
mod random;
mod reply;
mod rules;
mod script;
mod table;
mod timing;
mod twin;
mod words;

use answers::{ask, Who};
use archives::Archive;
use table::Row;

const USAGE: &str = "usage: bench [--limit SECONDS] [--part K] [--kind NAME] [--draw N] [--files]
       bench --write FOLDER [--draw N] | --words | script | permitconv";

struct Options {
    limit: f64,
    part: usize,
    kind: Option<String>,
    /// Which drawing of the files: 0 is the one that the pages speak of, any other has the same kinds from other seeds.
    draw: u64,
    files: bool,
    write: Option<String>,
}

fn usage() -> ! {
    eprintln!("{USAGE}");
    std::process::exit(1);
}

fn options(arguments: &[String]) -> Options {
    let mut options = Options { limit: 10.0, part: 1, kind: None, draw: 0, files: false, write: None };
    let mut rest = arguments.iter();
    while let Some(name) = rest.next() {
        if name == "--files" {
            options.files = true;
            continue;
        }
        let value = rest.next().unwrap_or_else(|| usage());
        match name.as_str() {
            "--limit" => options.limit = value.parse().ok().filter(|&limit| limit > 0.0).unwrap_or_else(|| usage()),
            "--part" => options.part = value.parse().ok().filter(|&part| part > 0).unwrap_or_else(|| usage()),
            "--draw" => options.draw = value.parse().unwrap_or_else(|_| usage()),
            "--write" => options.write = Some(value.clone()),
            "--kind" => options.kind = archives::KINDS.contains(&value.as_str()).then(|| value.clone()).or_else(|| usage()),
            _ => usage(),
        }
    }
    options
}

/// Asks the three about each file of the part; the last line counts what agrees.
fn compare(options: &Options) -> bool {
    let archives = archives::all(options.draw);
    let of_kind = |archive: &Archive| options.kind.as_ref().map_or(true, |kind| kind == archive.kind);
    let mut rows = Vec::new();
    let (mut passed, mut failed) = (0, 0);
    if options.files {
        println!("file  kind      permits         n  L  lang   D     product        twin  algorithm 1   (ms, verdict)");
    }
    for (number, archive) in archives.iter().enumerate().filter(|(_, archive)| of_kind(archive)).step_by(options.part) {
        let asked = |who| ask(who, archive, options.limit);
        let product = if product::LINKED { Some(asked(Who::Product)) } else { None };
        let row = Row { number, archive, product, twin: asked(Who::Twin), algorithm1: asked(Who::Algorithm1) };
        if options.files {
            println!("{}{}", row.name(), row.times());
        }
        for (what, agrees) in row.agreements() {
            if agrees {
                passed += 1;
            } else {
                failed += 1;
                println!("differs: {}  {what}", row.name());
            }
        }
        rows.push(row);
    }
    table::print(&rows, options.limit);
    println!();
    println!("{passed} passed, {failed} failed");
    failed == 0 && passed > 0
}

fn write_files(folder: &str, draw: u64) {
    for (number, archive) in archives::all(draw).iter().enumerate() {
        let path = std::path::Path::new(folder).join(format!("{number:03}-{}", archive.kind));
        std::fs::write(path, &archive.file).expect("the file can be written");
    }
}

/// Ends the program with 1 where something failed.
fn end(well: bool) {
    if !well {
        std::process::exit(1);
    }
}

fn main() {
    let arguments: Vec<String> = std::env::args().skip(1).collect();
    let words: Vec<&str> = arguments.iter().map(String::as_str).collect();
    match words[..] {
        ["script"] => script::run(),
        ["permitconv"] => permitconv::run(),
        ["--words"] => end(words::run()),
        ["answer", who, limit] => answers::answer(who, limit),
        _ => {
            let options = options(&arguments);
            if let Some(folder) = &options.write {
                write_files(folder, options.draw);
            } else {
                end(compare(&options));
            }
        }
    }
}
