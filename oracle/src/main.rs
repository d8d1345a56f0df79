//! argmin's own line searches as an oracle: makes searches, runs argmin on them, and writes what the program `cases` is
//! to read and to print.
//!
//! usage: oracle random SEED COUNT FOLDER    at least COUNT cases
//!        oracle list SEED COUNT FOLDER      a short list: of COUNT searches those that go a new way, with few answers
//!
//! FOLDER gets the files list.cases, list.expected and list.kinds.

// argmin's files find argmin_math's two traits here
extern crate self as argmin_math;
pub use math::{ArgminDot, ArgminScaledAdd};

#[macro_use]
#[allow(dead_code)]
mod core;
mod answers;
mod cases;
mod drive;
mod make;
mod math;
mod random;
mod watch;
#[allow(dead_code, unused_imports, unexpected_cfgs)]
mod solver {
    pub mod linesearch;
}

use cases::Files;
use drive::{End, Past, Run, PATIENCE};
use make::Search;
use random::{Random, BAD};
use std::collections::{BTreeMap, HashSet};
use std::fs::File;
use std::io::{self, BufWriter};
use std::path::Path;
use watch::RULES;

/// The most answers that a case of the list has, and one with a spoiled start.
const SHORT: usize = 10;
const SPOILED: usize = 4;

/// The most cases of a kind in the list, spoiled starts aside.
const SHARE: u32 = 130;

/// How many searches of the kind close are tried for the list, behind the others; in random cases one in so many is.
const CLOSE: u64 = 100;

/// The files, and what is counted on the way.
struct Made {
    files: Files<BufWriter<File>>,
    searches: u64,
    rules: BTreeMap<char, u64>,
    past: [u64; 4],
}

impl Made {
    fn new(folder: &Path) -> io::Result<Made> {
        let file = |name: &str| File::create(folder.join(name)).map(BufWriter::new);
        let files = Files::new(file("list.cases")?, file("list.expected")?, file("list.kinds")?);
        Ok(Made { files, searches: 0, rules: BTreeMap::new(), past: [0; 4] })
    }

    fn count(&mut self, run: &Run) {
        self.searches += 1;
        for rule in run.rules.chars() {
            *self.rules.entry(rule).or_insert(0) += 1;
        }
        if let Some(past) = run.past {
            self.past[past as usize] += 1;
        }
    }

    fn finish(mut self, seed: u64) -> io::Result<()> {
        self.files.flush()?;
        println!("seed {seed}: {} searches, {} cases", self.searches, self.files.count);
        let times = |c: &char| self.rules.get(c).unwrap_or(&0);
        let used: Vec<String> = RULES.iter().map(|(c, name)| format!("{name}: {}", times(c))).collect();
        println!("rules used: {}", used.join("; "));
        let past = |p: Past| self.past[p as usize];
        println!(
            "past a refusal, argmin stopped: {}; came to its limit: {}; met its unreachable point: {}; \
             did not end in {PATIENCE} evaluations: {}",
            past(Past::Stopped), past(Past::AtLimit), past(Past::Unreachable), past(Past::BrokenOff),
        );
        Ok(())
    }
}

fn random_of(seed: u64, nth: u64) -> Random {
    Random::new(seed ^ nth.rotate_left(32))
}

/// Answers past the end of some searches.
fn more(r: &mut Random, run: &Run) -> Vec<(f64, f64)> {
    match run.end {
        End::Waiting => vec![],
        _ if r.one_in(4) => vec![(r.finite(), r.finite()), (r.pick(&BAD), r.finite())],
        _ => vec![],
    }
}

/// Whole searches; of some also the answers up to each finished iteration, and up to any answer.
fn random(made: &mut Made, seed: u64, count: u64) -> io::Result<()> {
    let mut nth = 0;
    while made.files.count < count {
        let r = &mut random_of(seed, nth);
        let close = nth % CLOSE == 0;
        let Search { kind, start, model, most, .. } = &if close { make::close(r) } else { make::search(r, nth) };
        let run = drive::run(start, model, *most);
        let all = run.answers.len();
        made.count(&run);
        if r.one_in(4) {
            for mark in run.marks.iter().filter(|m| m.answers < all).take(16) {
                made.files.case(kind, start, &run, mark.answers, &[])?;
            }
        }
        if all > 0 && r.one_in(8) {
            made.files.case(kind, start, &run, r.below(all as u64) as usize, &[])?;
        }
        made.files.case(kind, start, &run, all, &more(r, &run))?;
        nth += 1;
    }
    Ok(())
}

/// Of so many searches those that meet the rules in a new order or end another way, starts that are spoiled in a new
/// way, and any on an edge and of backtracking.
fn list(made: &mut Made, seed: u64, tries: u64) -> io::Result<()> {
    let mut ways = HashSet::new();
    let mut taken = BTreeMap::new();
    for nth in 0..tries + CLOSE {
        let r = &mut random_of(seed, nth);
        let close = nth >= tries;
        let Search { kind, start, model, spoiled, .. } = &if close { make::close(r) } else { make::search(r, nth) };
        let run = drive::run(start, model, if spoiled.is_some() { SPOILED } else { SHORT });
        let taken = taken.entry(*kind).or_insert(0);
        let new = match spoiled {
            Some(how) => ways.insert(format!("{how:?}")),
            None if *taken == SHARE => false,
            None if run.rules.is_empty() || *kind == "edge" => true,
            None => ways.insert(format!("{kind} {} {} {}", run.rules, run.answers.len(), run.end.word())),
        };
        if new {
            *taken += 1;
            made.count(&run);
            made.files.case(kind, start, &run, run.answers.len(), &more(r, &run))?;
        }
    }
    Ok(())
}

fn main() {
    let arguments: Vec<String> = std::env::args().skip(1).collect();
    let number = |i: usize| arguments.get(i).and_then(|text| text.parse().ok());
    let make = match arguments.first().map(String::as_str) {
        Some("random") => random,
        Some("list") => list,
        _ => usage(),
    };
    let (Some(seed), Some(count), Some(folder)) = (number(1), number(2), arguments.get(3)) else { usage() };
    let made = || -> io::Result<()> {
        let mut made = Made::new(Path::new(folder))?;
        make(&mut made, seed, count)?;
        made.finish(seed)
    };
    if let Err(error) = made() {
        eprintln!("oracle: {error}");
        std::process::exit(1);
    }
}

fn usage() -> ! {
    eprintln!("usage: oracle random|list SEED COUNT FOLDER");
    std::process::exit(1);
}
