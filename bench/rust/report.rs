//! What is printed: Markdown tables, the goals, and the noise of the run.
use crate::time::{self, Least};
use std::time::Duration;

pub struct Report {
    pub budget: Duration,
    spreads: Vec<f64>,
    goals: Vec<[String; 4]>,
}

/// A time in the unit that suits it.
pub fn show(ns: f64) -> String {
    match ns {
        x if x < 100.0 => format!("{x:.1} ns"),
        x if x < 10_000.0 => format!("{x:.0} ns"),
        x if x < 10_000_000.0 => format!("{:.1} µs", x / 1e3),
        x => format!("{:.1} ms", x / 1e6),
    }
}
pub fn ratio(a: f64, b: f64) -> String {
    format!("{:.2}", a / b)
}
/// 1024 as 1 K, 1048576 as 1 M.
pub fn count(k: usize) -> String {
    match k {
        k if k >= 1 << 20 && k % (1 << 20) == 0 => format!("{} M", k >> 20),
        k if k >= 1 << 10 && k % (1 << 10) == 0 => format!("{} K", k >> 10),
        k => k.to_string(),
    }
}

/// The worst of some rows, and which it is.
#[derive(Default)]
pub struct Worst {
    pub value: f64,
    row: String,
}
impl Worst {
    pub fn see(&mut self, value: f64, row: String) {
        if value > self.value {
            *self = Worst { value, row };
        }
    }
    pub fn show(&self) -> String {
        format!("{:.2} ({})", self.value, self.row)
    }
}

impl Report {
    pub fn new(budget: Duration) -> Report {
        Report { budget, spreads: Vec::new(), goals: Vec::new() }
    }
    pub fn turns(&mut self, subjects: usize, run: impl FnMut(usize) -> f64) -> Vec<Least> {
        let times = time::turns(self.budget, subjects, run);
        self.spreads.extend(times.iter().map(|t| t.spread));
        times
    }
    pub fn table(&self, title: &str, columns: &[&str]) {
        println!("\n### {title}\n\n| {} |", columns.join(" | "));
        println!("|{}", "---|".repeat(columns.len()));
    }
    pub fn row(&self, cells: &[String]) {
        println!("| {} |", cells.join(" | "));
    }
    pub fn goal(&mut self, what: &str, wanted: &str, measured: String, reached: bool) {
        let said = if reached { "reached" } else { "not reached" };
        self.goals.push([what.into(), wanted.into(), measured, said.into()]);
    }
    /// The goals, and how far apart repeated least times lie.
    pub fn end(mut self) {
        if !self.goals.is_empty() {
            self.table("Goals", &["goal", "wanted", "measured", ""]);
            for g in &self.goals {
                self.row(g);
            }
        }
        self.spreads.sort_by(f64::total_cmp);
        let at = |q: f64| 100.0 * self.spreads[((self.spreads.len() - 1) as f64 * q) as usize];
        println!(
            "\nNoise: {} least times, each taken in five blocks of rounds; the blocks' least times lie apart by {:.1} % (median), {:.1} % (nine in ten), {:.1} % (all).",
            self.spreads.len(), at(0.5), at(0.9), at(1.0)
        );
    }
}
