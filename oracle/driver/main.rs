//! compare: the port and the Rust originals side by side, everything compared after every call.
//!
//!   compare minute | long                   all kinds of runs within 55 and 280 seconds
//!   compare all --seconds N | --calls N     all kinds of runs within this budget
//!   compare exhaustive [--depth N]
//!   compare random|restores|large|fuses [--seed N] [--seconds N | --calls N]
//!   compare selftest                        the driver finds every field that is spoilt
//! --seed N  where the random kinds begin    --say  each call on stderr before it is made
//! --break K  spoils field K of the port before it is compared
mod calls;
mod crash;
mod exhaustive;
mod large;
mod pair;
mod port;
mod random;
mod restores;
mod rng;
mod run;
mod selftest;
mod shrink;

use run::{Budget, Failure, Tally};
use std::process::exit;
use std::time::{Duration, Instant};

const KINDS: [&str; 5] = ["exhaustive", "random", "restores", "large", "fuses"];
/// Each kind's share of the time, and of the calls, in hundredths; exhaustive has a depth instead. A
/// call on a large device takes long.
const OF_TIME: [u64; 5] = [0, 40, 30, 20, 10];
const OF_CALLS: [u64; 5] = [0, 50, 38, 2, 10];
/// How long the sequences of the exhaustive kind are, if nothing else is said.
const DEPTH: usize = 5;
/// So many calls with old checkpoints or fuses meet a programming refused for its order, or are wrong.
const ENOUGH: u64 = 500_000;

struct Options {
    seed: u64,
    depth: usize,
    calls: Option<u64>,
    seconds: Option<u64>,
    say: bool,
    spoil: Option<pair::Field>,
}

fn usage() -> ! {
    eprintln!("usage: compare minute|long|all|exhaustive|random|restores|large|fuses|selftest [--seed N] [--seconds N | --calls N] [--depth N] [--say]");
    exit(2)
}

fn options(words: &[String]) -> Options {
    let mut o = Options { seed: 1, depth: DEPTH, calls: None, seconds: None, say: false, spoil: None };
    let mut words = words.iter();
    while let Some(word) = words.next() {
        if word == "--say" {
            o.say = true;
            continue;
        }
        let value: u64 = words.next().and_then(|x| x.parse().ok()).unwrap_or_else(|| usage());
        match word.as_str() {
            "--seed" => o.seed = value,
            "--depth" => o.depth = value as usize,
            "--calls" => o.calls = Some(value),
            "--seconds" => o.seconds = Some(value),
            "--break" => o.spoil = Some(pair::FIELDS.get(value as usize).unwrap_or_else(|| usage()).0),
            _ => usage(),
        }
    }
    o
}

/// One kind of run; its count of calls. A difference ends the program with status 1.
fn kind(name: &str, o: &Options) -> u64 {
    let budget = Budget { calls: o.calls, time: o.seconds.map(Duration::from_secs) };
    let mut tally = Tally::new(budget, o.say, o.spoil);
    println!("{name}: {}", if name == "exhaustive" { format!("depth {}", o.depth) } else { format!("seed {}", o.seed) });
    let outcome = match name {
        "exhaustive" => exhaustive::run(o.depth, &mut tally),
        "random" => random::run(o.seed, false, &mut tally),
        "restores" => restores::run(o.seed, &mut tally),
        "large" => large::run(o.seed, &mut tally),
        "fuses" => random::run(o.seed, true, &mut tally),
        _ => usage(),
    };
    if let Err(failure) = outcome {
        print_failure(name, &failure, o);
        exit(1);
    }
    tally.report(name);
    if ["restores", "fuses"].contains(&name) && tally.calls >= ENOUGH && tally.disorders == 0 {
        println!("{name}: no programming was refused for its order in {} calls", tally.calls);
        exit(3);
    }
    if name != "exhaustive" {
        println!("    seeds {} to {}", o.seed, o.seed + tally.runs - 1);
    }
    tally.calls
}

fn print_failure(name: &str, failure: &Failure, o: &Options) {
    println!("DIFFERENCE after {} calls: {}", failure.case.calls.len(), failure.difference);
    if name != "exhaustive" {
        println!("again: compare {name} --seed {} --calls 1", failure.seed);
    }
    match shrink::shrink(&failure.case, o.spoil) {
        Some((case, found)) => print!("shortened to {} calls: {}\n{}", case.calls.len(), found.difference, case.show(&found.answers)),
        None => print!("not shortened: the calls alone, from the start, do not show it\n{}", failure.case.show(&[])),
    }
}

/// All kinds: exhaustive first, the others with their shares of what is left.
fn all(o: Options) {
    let start = Instant::now();
    let mut calls = kind(KINDS[0], &o);
    let seconds = o.seconds.map(|most| most.saturating_sub(start.elapsed().as_secs()));
    for i in 1..KINDS.len() {
        let part = |most: u64, share: u64| (most * share / 100).max(1);
        let within = Options { calls: o.calls.map(|most| part(most, OF_CALLS[i])), seconds: seconds.map(|most| part(most, OF_TIME[i])), ..o };
        calls += kind(KINDS[i], &within);
    }
    println!("compare: {calls} calls compared, 0 differences, {:.1} s", start.elapsed().as_secs_f64());
}

fn main() {
    let words: Vec<String> = std::env::args().skip(1).collect();
    let Some(command) = words.first() else { usage() };
    let mut o = options(&words[1..]);
    crash::watch();
    match command.as_str() {
        "minute" => {
            (o.depth, o.seconds) = (6, Some(55));
            all(o)
        }
        "long" => {
            (o.depth, o.seconds) = (8, Some(280));
            all(o)
        }
        "selftest" => exit(if selftest::run() { 0 } else { 1 }),
        "all" if o.calls.is_some() || o.seconds.is_some() => all(o),
        "exhaustive" => drop(kind(command, &o)),
        name if KINDS.contains(&name) => {
            if o.calls.is_none() && o.seconds.is_none() {
                o.seconds = Some(10);
            }
            kind(name, &o);
        }
        _ => usage(),
    }
}
