//! A failing case made short: the calls after the difference go, then every call without which it
//! still fails.
use crate::calls::{Call, Case};
use crate::pair::{replay, Field, Found};
use std::time::{Duration, Instant};

/// Large devices take long to replay; after this the case is printed as short as it is by then.
const PATIENCE: Duration = Duration::from_secs(60);

/// None when the case, run again from its start, does not fail.
pub fn shrink(case: &Case, spoil: Option<Field>) -> Option<(Case, Found)> {
    let start = Instant::now();
    let mut best = (case.clone(), replay(case, spoil)?);
    cut(&mut best.0.calls, best.1.at);
    let mut chunk = best.0.calls.len().div_ceil(2).max(1);
    loop {
        let shorter = sweep(&mut best, chunk, spoil, start);
        if start.elapsed() >= PATIENCE || chunk == 1 && !shorter {
            return Some(best);
        }
        chunk = chunk.div_ceil(2);
    }
}

/// Tries to drop each chunk of calls once; whether any could go.
fn sweep(best: &mut (Case, Found), chunk: usize, spoil: Option<Field>, start: Instant) -> bool {
    let (mut from, mut shorter) = (0, false);
    while from < best.0.calls.len() && start.elapsed() < PATIENCE {
        let mut tried = best.0.clone();
        tried.calls.drain(from..(from + chunk).min(tried.calls.len()));
        match replay(&tried, spoil) {
            Some(found) => {
                cut(&mut tried.calls, found.at);
                *best = (tried, found);
                shorter = true;
            }
            None => from += chunk,
        }
    }
    shorter
}

/// Keeps the calls up to the one that differs.
fn cut(calls: &mut Vec<Call>, at: Option<usize>) {
    if let Some(i) = at {
        calls.truncate(i + 1);
    }
}
