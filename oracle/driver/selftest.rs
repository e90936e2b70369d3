//! The driver's own test: each compared field is spoilt on the port's side in turn, and each time the
//! driver must say so, name that field, and shorten the run to the few calls that are needed.
use crate::pair::{Field, FIELDS};
use crate::run::{Budget, Tally};
use crate::shrink::shrink;
use crate::{exhaustive, random};

fn found(field: Field, by_random: bool) -> Result<usize, String> {
    let budget = Budget { calls: Some(200_000), time: None };
    let mut tally = Tally::new(budget, false, Some(field));
    let outcome = if by_random { random::run(3, false, &mut tally) } else { exhaustive::run_quietly(6, &mut tally) };
    let failure = outcome.err().ok_or("no difference reported")?;
    if failure.difference.field != field {
        return Err(format!("another field reported: {}", failure.difference));
    }
    let (case, found) = shrink(&failure.case, Some(field)).ok_or("the case does not fail when run again")?;
    // Enough to reach an erase from fresh tables: fill a segment, overwrite, collect.
    if found.difference.field != field || case.calls.len() > case.g.p + 2 {
        return Err(format!("shortened to {} calls, {}", case.calls.len(), found.difference));
    }
    Ok(case.calls.len())
}

/// Whether every spoilt field was found.
pub fn run() -> bool {
    let mut good = 0;
    for (field, name) in FIELDS {
        match (found(field, true), found(field, false)) {
            (Ok(a), Ok(b)) => {
                good += 1;
                println!("  {name}: found, shortened to {a} calls (random) and {b} (exhaustive)");
            }
            (a, b) => println!("  {name}: NOT FOUND: {a:?} {b:?}"),
        }
    }
    println!("selftest: {good} of {} spoilt fields found", FIELDS.len());
    good == FIELDS.len()
}
