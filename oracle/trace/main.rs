//! oracle_trace: document 01's program `trace`, its work done by the Rust originals, all but the queueing of record 6.
//! It reads a trace from standard input and prints 01's lines; the stored answers are made with it.
//!
//!   oracle_trace < FILE.bin
//!   oracle_trace FILE.bin...     writes FILE.out beside each
use originals::{Original, Shape};
use std::fmt::Write as _;
use std::io::{Read, Write};

/// The longest input.
const MOST: usize = 16_384;

/// A trace that is short, holds an unknown record or a bad number.
struct Malformed;

struct Reader<'a> {
    rest: &'a [u8],
}

impl<'a> Reader<'a> {
    fn take(&mut self, count: u64) -> Result<&'a [u8], Malformed> {
        if count > self.rest.len() as u64 {
            return Err(Malformed);
        }
        let (taken, rest) = self.rest.split_at(count as usize);
        self.rest = rest;
        Ok(taken)
    }

    /// Groups of seven bits, lowest first, in the shortest form, below 2^64.
    fn number(&mut self) -> Result<u64, Malformed> {
        let mut value = 0u128;
        for group in 0..10 {
            let byte = self.take(1)?[0];
            value |= ((byte & 127) as u128) << (7 * group);
            if byte < 128 {
                let shortest = group == 0 || byte != 0;
                return u64::try_from(value).ok().filter(|_| shortest).ok_or(Malformed);
            }
        }
        Err(Malformed)
    }

    fn numbers(&mut self, count: u64) -> Result<Vec<u64>, Malformed> {
        (0..count).map(|_| self.number()).collect()
    }
}

/// n, p, s, w, e, erase limit, and the bad segments' numbers.
fn header(reader: &mut Reader) -> Result<(Vec<u64>, Vec<u64>), Malformed> {
    let six = reader.numbers(6)?;
    let count = reader.number()?;
    Ok((six, reader.numbers(count)?))
}

/// The geometry, if 01 and the trace's own limits allow it.
fn shape(six: &[u64], bad: &[u64]) -> Option<Shape> {
    let [n, p, s, w, e, limit] = six.try_into().ok()?;
    let ranges = (1..=65_535).contains(&n) && (1..=1_024).contains(&p) && (1..=16_384).contains(&s);
    let good = ranges && w <= 16 && p <= 1 << w && (1..=n * p).contains(&e) && limit <= u32::MAX as u64;
    let small = good && n * p <= 1_024 && s <= 512 && n * p * s <= 32_768;
    let listed = bad.iter().all(|&g| g < n);
    (small && listed).then_some(Shape { n: n as usize, p: p as usize, s: s as usize, w: w as u32, e: e as usize, limit: limit as u32 })
}

fn line(out: &mut String, letter: char, answer: i64) {
    let mark = if answer < 0 { "!" } else { "" };
    let _ = writeln!(out, "{letter} {mark}{}", answer.unsigned_abs());
}

fn read(device: &mut Original, sector: u64, length: u64, out: &mut String) {
    // A longer one is refused whatever the buffer.
    let mut buffer = vec![0; length.min(MOST as u64 + 1) as usize];
    let answer = device.read(sector as usize, length as usize, &mut buffer);
    if answer < 0 {
        return line(out, 'r', answer);
    }
    let hex: String = buffer.iter().map(|byte| format!("{byte:02x}")).collect();
    let _ = writeln!(out, "r {hex}");
}

fn record(reader: &mut Reader, device: &mut Original, last: &mut Vec<u8>, out: &mut String) -> Result<(), Malformed> {
    match reader.number()? {
        0 => {
            let (sector, length) = (reader.number()?, reader.number()?);
            let data = reader.take(length)?;
            line(out, 'w', device.write(sector as usize, data.len(), data));
        }
        1 => {
            let (sector, length) = (reader.number()?, reader.number()?);
            read(device, sector, length, out);
        }
        2 => line(out, 'g', device.collect()),
        3 => line(out, 'l', device.collect_list(reader.number()?)),
        4 => {
            *last = device.encode();
            line(out, 'c', last.len() as i64);
        }
        5 => line(out, 's', device.restore(last)),
        // 02, M-109. The Rust has no counterpart: its own restore, then plain.rs's rule.
        6 => line(out, 's', device.restore_dead(last)),
        _ => return Err(Malformed),
    }
    Ok(())
}

/// The last line: each entry of the map.
fn map(device: &Original, shape: &Shape, out: &mut String) {
    out.push('m');
    for &word in device.map() {
        let _ = match word {
            u32::MAX => write!(out, " -"),
            word => write!(out, " {}.{}", word >> shape.w, word & ((1 << shape.w) - 1)),
        };
    }
    out.push('\n');
}

fn trace(input: &[u8]) -> String {
    if input.len() > MOST {
        return "t !3\n".into();
    }
    let mut reader = Reader { rest: input };
    let Ok((six, bad)) = header(&mut reader) else { return "t !1\n".into() };
    let Some(shape) = shape(&six, &bad) else { return "t !2\n".into() };
    let mut marks = vec![0; shape.n];
    bad.iter().for_each(|&g| marks[g as usize] = 1);
    let mut device = Original::new(shape, &marks);
    let (mut last, mut out) = (vec![], String::new());
    while !reader.rest.is_empty() {
        if record(&mut reader, &mut device, &mut last, &mut out).is_err() {
            return out + "t !1\n";
        }
    }
    map(&device, &shape, &mut out);
    out
}

fn main() -> std::io::Result<()> {
    let files: Vec<String> = std::env::args().skip(1).collect();
    for file in &files {
        let answer = trace(&std::fs::read(file)?);
        std::fs::write(format!("{}.out", file.strip_suffix(".bin").unwrap_or(file)), answer)?;
    }
    if files.is_empty() {
        let mut input = vec![];
        std::io::stdin().lock().read_to_end(&mut input)?;
        std::io::stdout().lock().write_all(trace(&input).as_bytes())?;
    }
    Ok(())
}
