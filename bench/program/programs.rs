//! The programs on full input.

use crate::numbers::{Numbers, middle};
use std::fmt::Write;
use std::fs::{self, File};
use std::process::{Command, Stdio};
use std::time::Instant;

/// The most bytes of a sheet.
const SHEET: usize = 65_535;

struct Program<'a> {
    folder: &'a str,
    name: &'a str,
    args: &'a [&'a str],
    /// How often it is run.
    rounds: usize,
}

impl Program<'_> {
    fn command(&self) -> Command {
        let mut command = Command::new(format!(
            "{}/crates/{}/out/{}",
            self.folder, self.name, self.name
        ));
        command.args(self.args);
        command
    }

    /// What it prints for some input. A refusal of a line, or of the whole, is a fault.
    fn try_on(&self, path: &str) -> Result<(), String> {
        let input = File::open(path).map_err(|it| it.to_string())?;
        let output = self
            .command()
            .stdin(input)
            .output()
            .map_err(|it| format!("{}: {it}", self.name))?;
        let text = String::from_utf8_lossy(&output.stdout);
        let refused = ["refused", "unreadable", "fault"]
            .iter()
            .any(|it| text.contains(it));
        if !output.status.success() || refused || text.is_empty() {
            return Err(format!("{} refused something of {path}", self.name));
        }
        Ok(())
    }

    /// Milliseconds that a run takes.
    fn time_on(&self, path: &str) -> Result<f64, String> {
        let input = File::open(path).map_err(|it| it.to_string())?;
        let begun = Instant::now();
        let status = self.command().stdin(input).stdout(Stdio::null()).status();
        let time = begun.elapsed().as_nanos() as f64 / 1e6;
        match status {
            Ok(it) if it.success() => Ok(time),
            _ => Err(format!("{} failed on {path}", self.name)),
        }
    }

    /// Milliseconds on no input, on some, and between the two, by runs in turn.
    fn times_on(&self, none: &str, path: &str) -> Result<[f64; 3], String> {
        let mut times = [Vec::new(), Vec::new(), Vec::new()];
        for _ in 0..self.rounds {
            let (empty, full) = (self.time_on(none)?, self.time_on(path)?);
            for (all, time) in times.iter_mut().zip([empty, full, full - empty]) {
                all.push(time);
            }
        }
        Ok(times.map(|it| middle(&it)))
    }
}

/// A list of so many pairs, no two alike.
fn list(numbers: &mut Numbers, lines: usize) -> String {
    let mut text = String::new();
    for i in 0..lines {
        // The low bits make each left glyph and right glyph another pair.
        let (left, right) = (i % 245 * 267, i / 245 * 267 + numbers.below(200));
        let value = numbers.below(65_536) as i64 - 32_768;
        let _ = writeln!(text, "pair {left} {right} {value}");
    }
    text
}

/// A sheet of `pair` lines, and `find` lines where `mixed`, over so many pairs: as many bytes as one may have.
fn sheet(numbers: &mut Numbers, pairs: usize, mixed: bool) -> (String, usize) {
    let mut text = String::new();
    let mut turn = 0;
    while text.len() + 60 < SHEET {
        // Each pair is put once before anything else.
        let i = if turn < pairs {
            turn
        } else {
            numbers.below(pairs)
        };
        let (left, right) = (30_000 + i * 7, 40_000 + i * 11);
        let _ = match numbers.below(if mixed && turn >= pairs { 4 } else { 1 }) {
            0 => writeln!(
                text,
                "pair {left} {right} {}",
                numbers.below(200) as i64 - 100
            ),
            1 => writeln!(text, "drop {left} {right}\npair {left} {right} -40"),
            _ => writeln!(text, "find {left} {}", right + numbers.below(2)),
        };
        turn += 1;
    }
    while SHEET - text.len() > 17 {
        text.push_str("find 1 1\n");
    }
    let digits = SHEET - text.len() - 7;
    let _ = writeln!(
        text,
        "find {} {}",
        "1".repeat(digits / 2),
        "1".repeat(digits - digits / 2)
    );
    let lines = text.lines().count();
    (text, lines)
}

fn saved(folder: &str, name: &str, text: &str) -> Result<String, String> {
    let path = format!("{folder}/{name}");
    fs::write(&path, text).map_err(|it| format!("{path}: {it}"))?;
    Ok(path)
}

pub fn measure(folder: &str) -> Result<(), String> {
    let mut numbers = Numbers::new(1);
    let words = Program {
        folder,
        name: "kernwords",
        args: &["16", "16", "1028"],
        rounds: 5,
    };
    let sheets = Program {
        folder,
        name: "kernsheet",
        args: &[],
        rounds: 101,
    };
    let (pairs, pairs_lines) = sheet(&mut numbers, 200, false);
    let (mixed, mixed_lines) = sheet(&mut numbers, 200, true);
    let inputs = [
        (&words, "list", list(&mut numbers, 60_000), 60_000),
        (&sheets, "pairs", pairs, pairs_lines),
        (&sheets, "mixed", mixed, mixed_lines),
    ];
    println!("\n## The programs\n");
    println!("| program | input | lines | bytes | ms | ms on no input | ns for each line |");
    println!("|---|---|---|---|---|---|---|");
    let none = saved(folder, "none", "")?;
    for (program, name, text, lines) in &inputs {
        let path = saved(folder, name, text)?;
        program.try_on(&path)?;
        let [empty, full, more] = program.times_on(&none, &path)?;
        let each = more * 1e6 / *lines as f64;
        println!(
            "| {} | {name} | {lines} | {} | {full:.2} | {empty:.2} | {each:.0} |",
            program.name,
            text.len()
        );
    }
    Ok(())
}
