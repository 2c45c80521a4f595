//! Times the calls of the filter beside a plain filter with the same words, beside tables, and the programs on full input.
//! Prints tables for docs/BENCHMARKS.md. Ends with status 1 where two filters differ in an answer or in a word.

mod calls;
mod numbers;
mod plain;
mod programs;
mod session;
mod tables;

use numbers::{Numbers, Pairs};
use session::{Kind, Measured, Session, Step};
use std::process::ExitCode;
use std::rc::Rc;
use tables::Lookups;

/// Bits of a fingerprint: that of a pair has 32.
const BITS: u32 = 32;

/// How many questions are asked at once, and how often.
const QUESTIONS: usize = 1 << 16;
const ROUNDS: usize = 11;

/// A plan, how many blocks more than its quotients need, and how many entries come and go at once.
struct Size {
    q: u32,
    more: usize,
    batch: usize,
    batches: usize,
}

const SIZES: [Size; 4] = [
    Size {
        q: 10,
        more: 3,
        batch: 16,
        batches: 2048,
    },
    Size {
        q: 14,
        more: 4,
        batch: 128,
        batches: 256,
    },
    Size {
        q: 17,
        more: 4,
        batch: 1024,
        batches: 33,
    },
    Size {
        q: 20,
        more: 4,
        batch: 4096,
        batches: 11,
    },
];

const LOADS: [usize; 5] = [25, 50, 75, 90, 95];

/// All that was measured at one size and load.
struct Row {
    q: u32,
    load: usize,
    usual: Measured,
    newer: Measured,
    lookups: Lookups,
}

fn measure(size: &Size, load: usize) -> Result<Row, String> {
    let (q, r) = (size.q, BITS - size.q);
    let blocks = (1 << q) / 64 + size.more;
    let entries = (1 << q) * load / 100 - size.batch / 2;
    let mut numbers = Numbers::new(u64::from(q) << 8 | load as u64);
    let pairs = Pairs::new(
        &mut numbers,
        entries,
        entries.max(QUESTIONS) + size.batch * size.batches,
    );
    let held = pairs.held();
    let absent = pairs.absent();
    let pick = |numbers: &mut Numbers, from: &[u64]| -> Rc<[u64]> {
        (0..QUESTIONS)
            .map(|_| from[numbers.below(from.len())])
            .collect()
    };
    let questions = [pick(&mut numbers, &held), pick(&mut numbers, &absent)];
    let mut steps = vec![Step {
        kind: Kind::LayOut,
        list: held.clone().into(),
        count: 1,
    }];
    for _ in 0..ROUNDS {
        for (kind, list, count) in [
            (Kind::AskHeld, &questions[0], QUESTIONS as u64),
            (Kind::AskAbsent, &questions[1], 0),
        ] {
            steps.push(Step {
                kind,
                list: list.clone(),
                count,
            });
        }
    }
    for some in absent.chunks_exact(size.batch).take(size.batches) {
        let mut back = some.to_vec();
        numbers.shuffle(&mut back);
        let count = size.batch as u64;
        steps.push(Step {
            kind: Kind::Add,
            list: some.into(),
            count,
        });
        steps.push(Step {
            kind: Kind::Take,
            list: back.into(),
            count,
        });
    }
    let session = Session {
        q,
        r,
        blocks,
        steps: steps.into(),
    };
    let usual = session.run(calls::USUAL)?;
    let newer = session.run(calls::NEWER)?;
    let lookups = tables::measure(&mut numbers, &pairs, QUESTIONS, ROUNDS);
    Ok(Row {
        q,
        load,
        usual,
        newer,
        lookups,
    })
}

/// The calls that the tables show, in their order.
const SHOWN: [Kind; 4] = [Kind::AskHeld, Kind::AskAbsent, Kind::Add, Kind::Take];

/// Of each call shown a ratio, in cells of its own.
fn ratios(of: impl Fn(Kind) -> f64) -> String {
    SHOWN.map(|kind| format!("{:.2}", of(kind))).join(" | ")
}

/// Of each call shown its time, in one cell.
fn times(of: impl Fn(Kind) -> f64) -> String {
    SHOWN.map(|kind| format!("{:.1}", of(kind))).join(", ")
}

/// Prints a table: a line for each size and load, with these cells after the two.
fn print_table(columns: &str, rows: &[Row], cells: impl Fn(&Row) -> String) {
    println!("| q | load | {columns} |");
    println!("|{}", "---|".repeat(3 + columns.matches(" | ").count()));
    for row in rows {
        println!("| {} | {} % | {} |", row.q, row.load, cells(row));
    }
}

fn print(rows: &[Row]) {
    println!("## The filter against the plain filter\n");
    println!("The filter as it is built by default, the plain filter with `pdep`.\n");
    print_table(
        "`has`, held | `has`, absent | `add` | `take` | filter, ns | plain, ns",
        rows,
        |Row { usual, .. }| {
            let ratios = ratios(|kind| usual.against(kind, true));
            let filter = times(|kind| usual.filter(kind));
            let plain = times(|kind| usual.with_pdep(kind));
            format!("{ratios} | {filter} | {plain}")
        },
    );
    println!("\n## The same by processor\n");
    println!(
        "Default: both without `pdep`. v3: both for x86-64-v3, the plain filter with `pdep`.\n"
    );
    print_table(
        "`has`, held | `has`, absent | `add` | `take` | v3: `has`, held | `has`, absent | `add` | `take` | plain without `pdep`, ns | filter v3, ns",
        rows,
        |Row { usual, newer, .. }| {
            let default = ratios(|kind| usual.against(kind, false));
            let v3 = ratios(|kind| newer.against(kind, true));
            let plain = times(|kind| usual.without_pdep(kind));
            let filter = times(|kind| newer.filter(kind));
            format!("{default} | {v3} | {plain} | {filter}")
        },
    );
    println!("\n## `has` against lookups of the table alone\n");
    print_table(
        "absent: of the hash map's time | of the tree's | of the search's | held: of the hash map's | hash map, ns (held, absent) | tree, ns | search, ns",
        rows,
        |Row { usual, lookups, .. }| {
            let Lookups { hash, tree, search } = lookups;
            let all = [hash, tree, search];
            let absent = all.map(|it| format!("{:.2}", usual.filter(Kind::AskAbsent) / it[1]));
            let held = usual.filter(Kind::AskHeld) / hash[0];
            let tables = all.map(|[held, absent]| format!("{held:.1}, {absent:.1}"));
            format!(
                "{} | {held:.2} | {}",
                absent.join(" | "),
                tables.join(" | ")
            )
        },
    );
}

fn run(folder: &str) -> Result<(), String> {
    if !["popcnt", "bmi2"].iter().all(|it| numbers::has_feature(it)) {
        return Err("this program needs a processor with popcnt, bmi1, bmi2 and lzcnt".into());
    }
    let mut rows = Vec::new();
    for size in &SIZES {
        for load in LOADS {
            eprintln!("q {} load {load} %", size.q);
            rows.push(measure(size, load)?);
        }
    }
    print(&rows);
    programs::measure(folder)
}

fn main() -> ExitCode {
    let Some(folder) = std::env::args().nth(1) else {
        eprintln!(
            "usage: laqhipun-bench FOLDER, where FOLDER has the built programs in crates/NAME/out"
        );
        return ExitCode::FAILURE;
    };
    match run(&folder) {
        Ok(()) => ExitCode::SUCCESS,
        Err(reason) => {
            eprintln!("bench: {reason}");
            ExitCode::FAILURE
        }
    }
}
