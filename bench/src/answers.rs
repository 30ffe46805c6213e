//! The answers of one of the three for one file, each call in its time limit.
//!
//! The benchmark starts itself as `bench answer WHO LIMIT` with the file as standard input. That process prints a line
//! for each call that ended, and the timer ends it where a call doesn't.

use crate::archives::Archive;
use crate::house::{self, House};
use crate::{algorithm1, product, reply, timing};
use std::io::{Read, Write};
use std::process::{Command, Stdio};
use std::time::Duration;

pub const CALLS: [&str; 3] = ["verdict", "mining", "permit"];
const MOST_PAIRS: usize = 24;

/// Who answers.
#[derive(Clone, Copy, PartialEq)]
pub enum Who {
    Product,
    Twin,
    Algorithm1,
}

impl Who {
    pub fn name(self) -> &'static str {
        match self {
            Who::Product => "product",
            Who::Twin => "twin",
            Who::Algorithm1 => "algorithm1",
        }
    }

    fn named(name: &str) -> Who {
        let found = [Who::Product, Who::Twin, Who::Algorithm1].into_iter().find(|who| who.name() == name);
        found.unwrap_or_else(|| panic!("nobody is called {name}"))
    }
}

/// A call that ended: a number that must be the same for all, the time in microseconds, and whether the answer is
/// right by what the file itself says.
#[derive(Clone, Copy)]
pub struct Answer {
    pub number: u64,
    pub micros: f64,
    pub right: bool,
}

/// The answers of the calls; none where a call didn't end in its limit, or wasn't made. Without a list there is
/// nothing to mine or to ask the permit call.
#[derive(Clone, Copy)]
pub struct Answers {
    pub calls: [Option<Answer>; 3],
    /// The call that didn't end, if any.
    pub over: Option<usize>,
}

impl Answers {
    pub fn convertible(&self) -> Option<bool> {
        self.calls[0].map(|answer| answer.number & 255 == reply::CONVERTIBLE)
    }
}

// ------------------------------------------------------------------------ asking

/// Starts a process for the answers and waits for it.
pub fn ask(who: Who, archive: &Archive, limit: f64) -> Answers {
    let program = std::env::current_exe().expect("the program's own path");
    let mut child = Command::new(program).args(["answer", who.name(), &limit.to_string()])
        .stdin(Stdio::piped()).stdout(Stdio::piped()).spawn().expect("a process can be started");
    child.stdin.take().expect("standard input").write_all(&archive.file).expect("the file is handed over");
    let output = child.wait_with_output().expect("the process ends");
    let text = String::from_utf8(output.stdout).expect("lines of text");
    let mut answers = Answers { calls: [None; 3], over: None };
    let (mut count, mut ended) = (0, false);
    for line in text.lines() {
        if line == "end" {
            ended = true;
        } else {
            answers.calls[count] = Some(read_answer(line));
            count += 1;
        }
    }
    if !ended {
        answers.over = Some(count);
    }
    answers
}

fn read_answer(line: &str) -> Answer {
    let parts: Vec<&str> = line.split(' ').collect();
    Answer { number: parts[0].parse().expect("a number"), micros: parts[1].parse().expect("a time"), right: parts[2] == "right" }
}

// ------------------------------------------------------------------------ answering

/// The calls as functions.
struct Calls {
    verdict: fn(&[u8]) -> u64,
    mining: fn(&[u8], &mut [u8], &mut [u8]) -> u64,
    permit: fn(&[u8], &[u8], usize, usize) -> u64,
}

/// The process that was started: reads the file, makes the calls, prints the answers.
pub fn answer(who: &str, limit: &str) {
    let limit = Duration::from_secs_f64(limit.parse().expect("a limit in seconds"));
    let mut file = Vec::new();
    std::io::stdin().read_to_end(&mut file).expect("the file can be read");
    let house = house::read(&file).unwrap_or_else(|number| panic!("file refused {number}"));
    match Who::named(who) {
        Who::Product => {
            let calls = Calls { verdict: product::verdict, mining: product::mining, permit: product::permit };
            answer_calls(&calls, &house, &file, limit);
        }
        Who::Twin => {
            let calls = Calls { verdict: reply::verdict, mining: reply::mining, permit: reply::permit };
            answer_calls(&calls, &house, &file, limit);
        }
        Who::Algorithm1 => answer_listing(&house, limit),
    }
    say("end");
}

fn say(line: &str) {
    let mut output = std::io::stdout();
    writeln!(output, "{line}").and_then(|_| output.flush()).expect("the answer can be written");
}

/// Runs a call in the limit, and prints its number and time and whether it is right.
fn say_answer<T>(limit: Duration, call: impl Fn() -> T, number: impl Fn(&T) -> u64, right: impl Fn(&T) -> bool) -> T {
    timing::end_after(limit);
    let (result, time) = timing::timed(call);
    timing::end_after(Duration::ZERO);
    let word = if right(&result) { "right" } else { "wrong" };
    say(&format!("{} {:.3} {word}", number(&result), time.as_secs_f64() * 1e6));
    result
}

fn answer_calls(calls: &Calls, house: &House, file: &[u8], limit: Duration) {
    let verdict = say_answer(limit, || (calls.verdict)(file), |&reply| reply, |_| true);
    if verdict & 255 != reply::CONVERTIBLE {
        return;
    }
    let length = (verdict >> 8) as usize;
    let mine = || {
        let (mut scratch, mut output) = (vec![0; reply::SCRATCH], vec![0; length]);
        let reply = (calls.mining)(file, &mut scratch, &mut output);
        (reply, scratch, output)
    };
    // mining writes a list as long as the verdict says, and it permits what the file permits
    let marked = |scratch: &[u8], (a, b): (usize, usize)| scratch[32 * a + b] == house.is_permitted(a, b) as u8;
    let (_, _, list) = say_answer(limit, mine, |(reply, scratch, output)| summed(*reply, scratch, output),
                                  |(reply, scratch, _)| *reply == verdict && house.pairs().all(|pair| marked(scratch, pair)));
    let pairs: Vec<(usize, usize)> = house.pairs().collect();
    let some: Vec<(usize, usize)> = pairs.iter().copied().step_by(pairs.len() / MOST_PAIRS + 1).collect();
    let permits = || some.iter().map(|&(a, b)| (calls.permit)(file, &list, a, b)).collect::<Vec<u64>>();
    let by_file: Vec<u64> = some.iter().map(|&(a, b)| reply::CONVERTIBLE + house.is_permitted(a, b) as u64).collect();
    say_answer(limit, permits, |replies| replies.iter().fold(0, |sum, &reply| mixed(sum, reply)), |replies| *replies == by_file);
}

/// Algorithm 1 names the first pair that can't be permitted, and no rival.
fn answer_listing(house: &House, limit: Duration) {
    timing::end_after(limit);
    let start = timing::used();
    if let Ok(failed) = algorithm1::failed(house) {
        let time = timing::used() - start;
        timing::end_after(Duration::ZERO);
        let number = failed.first().map_or(reply::CONVERTIBLE, |&(a, b)| reply::NO_WORD | (a << 8 | b << 16) as u64);
        say(&format!("{number} {:.3} right", time.as_secs_f64() * 1e6));
    } else {
        std::process::exit(1);
    }
}

/// The part of a verdict that Algorithm 1 has too.
pub fn without_rival(verdict: u64) -> u64 {
    match verdict & 255 {
        reply::CONVERTIBLE => reply::CONVERTIBLE,
        _ => reply::NO_WORD | (verdict & 0xFF_FF00),
    }
}

fn mixed(sum: u64, number: u64) -> u64 {
    sum.wrapping_mul(31).wrapping_add(number)
}

/// A mining call as one number: the reply, and a sum over the bytes written.
fn summed(reply: u64, scratch: &[u8], output: &[u8]) -> u64 {
    scratch.iter().chain(output).fold(reply, |sum, &byte| mixed(sum, byte as u64))
}
