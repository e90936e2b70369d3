//! What the kinds of runs share: a budget, a count of what was compared, and a run that keeps its calls.
use crate::calls::{Call, Case, KINDS};
use crate::crash;
use crate::pair::{Difference, Field, Pair};
use crate::port::Geometry;
use std::collections::BTreeMap;
use std::time::{Duration, Instant};

/// Ends a kind of run: so many calls, or so much time, whichever is given.
#[derive(Clone, Copy)]
pub struct Budget {
    pub calls: Option<u64>,
    pub time: Option<Duration>,
}

/// What was compared, and how it was answered.
pub struct Tally {
    pub start: Instant,
    pub calls: u64,
    pub runs: u64,
    /// By kind of call and answer; every count that was answered is one class, shown as 0.
    answers: BTreeMap<(usize, i64), u64>,
    /// Erases done, and collections that found the least valid count more than once in the queue.
    erases: u64,
    ties: u64,
    /// Programmings refused for their order alone.
    pub disorders: u64,
    budget: Budget,
    say: bool,
    pub spoil: Option<Field>,
}

impl Tally {
    pub fn new(budget: Budget, say: bool, spoil: Option<Field>) -> Tally {
        Tally { start: Instant::now(), calls: 0, runs: 0, answers: BTreeMap::new(), erases: 0, ties: 0, disorders: 0, budget, say, spoil }
    }

    pub fn spent(&self) -> bool {
        self.budget.calls.is_some_and(|most| self.calls >= most) || self.budget.time.is_some_and(|most| self.start.elapsed() >= most)
    }

    /// A run begins.
    pub fn begin(&mut self, seed: u64, g: &Geometry) {
        self.runs += 1;
        crash::entered(seed);
        if self.say {
            eprintln!("seed {seed}, {g:?}");
        }
    }

    /// One call on a pair, counted. With `say` it is printed before it is made.
    pub fn step(&mut self, pair: &mut Pair, call: &Call) -> Result<i64, Difference> {
        if self.say {
            eprintln!("{call}");
        }
        let collects = matches!(call, Call::Collect | Call::List(_) | Call::Threshold(..));
        let tied = collects && pair.tied();
        let (before, disorders) = (pair.erases(), pair.disorders());
        let answer = pair.step(call)?;
        self.calls += 1;
        self.erases += pair.erases().saturating_sub(before);
        self.ties += tied as u64;
        self.disorders += pair.disorders() - disorders;
        *self.answers.entry((call.kind(), answer.min(0))).or_default() += 1;
        Ok(answer)
    }

    pub fn report(&self, name: &str) {
        let seconds = self.start.elapsed().as_secs_f64();
        println!("{name}: {} calls compared in {} runs, 0 differences, {seconds:.1} s", self.calls, self.runs);
        println!(
            "    {} erases, {} collections with a tie for the victim, {} programmings refused for their order alone",
            self.erases, self.ties, self.disorders
        );
        let said = |answer: i64, count: u64| match answer {
            0 => format!("done x{count}"),
            refusal => format!("{refusal} x{count}"),
        };
        for (kind, label) in KINDS.iter().enumerate() {
            let of_kind = self.answers.range((kind, i64::MIN)..=(kind, 0)).rev();
            let line: Vec<String> = of_kind.map(|((_, answer), count)| said(*answer, *count)).collect();
            if !line.is_empty() {
                println!("    {label}: {}", line.join(", "));
            }
        }
    }
}

/// A difference, and the case that shows it.
pub struct Failure {
    pub case: Case,
    pub difference: Difference,
    pub seed: u64,
}

/// A pair with the calls made on it so far.
pub struct Run {
    pub pair: Pair,
    pub calls: Vec<Call>,
    seed: u64,
}

impl Run {
    pub fn new(g: Geometry, bad: Vec<u8>, seed: u64, tally: &mut Tally) -> Result<Run, Failure> {
        tally.begin(seed, &g);
        match Pair::new(g, &bad) {
            Ok(mut pair) => {
                pair.spoil = tally.spoil;
                Ok(Run { pair, calls: vec![], seed })
            }
            Err(difference) => Err(Failure { case: Case { g, bad, calls: vec![] }, difference, seed }),
        }
    }

    pub fn step(&mut self, call: Call, tally: &mut Tally) -> Result<i64, Failure> {
        let answer = tally.step(&mut self.pair, &call);
        self.calls.push(call);
        answer.map_err(|difference| self.failure(difference))
    }

    /// A run of its own that goes on from here.
    pub fn branch(&self) -> Run {
        Run { pair: self.pair.copy(), calls: self.calls.clone(), seed: self.seed }
    }

    /// The end: the Rust's closing writes the same checkpoint.
    pub fn close(self) -> Result<(), Failure> {
        let case = Case { g: self.pair.g, bad: self.pair.bad.clone(), calls: self.calls };
        self.pair.close().map_err(|difference| Failure { case, difference, seed: self.seed })
    }

    fn failure(&self, difference: Difference) -> Failure {
        let case = Case { g: self.pair.g, bad: self.pair.bad.clone(), calls: self.calls.clone() };
        Failure { case, difference, seed: self.seed }
    }
}
