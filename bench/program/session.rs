//! The same steps by the filter and by two plain filters, each timed.
//!
//! The library holds the filter while it serves, and asks this program for one step after the other; so nothing but the calls of a step is timed, and no
//! filter is laid out anew for it. When the filter has done a step, the plain filters do the same, and answers and words are compared.

use crate::calls::{self, Serve};
use crate::numbers::middle;
use crate::plain::{Calls, Plain};
use std::cell::RefCell;
use std::hint::black_box;
use std::rc::Rc;
use std::time::Instant;

#[derive(Clone, Copy, PartialEq, Eq, Debug)]
pub enum Kind {
    AskHeld,
    AskAbsent,
    Add,
    Take,
    LayOut,
}

/// What is done with a list, and what is to be counted.
pub struct Step {
    pub kind: Kind,
    pub list: Rc<[u64]>,
    pub count: u64,
}

pub struct Session {
    pub q: u32,
    pub r: u32,
    pub blocks: usize,
    pub steps: Rc<[Step]>,
}

/// Nanoseconds for each call, step by step: of the filter, of the plain filter with `pdep`, and of that without.
#[derive(Default)]
pub struct Measured {
    steps: Vec<(Kind, [f64; 3])>,
}

impl Measured {
    fn of(&self, kind: Kind, read: impl Fn(&[f64; 3]) -> f64) -> f64 {
        let times: Vec<f64> = self
            .steps
            .iter()
            .filter(|it| it.0 == kind)
            .map(|it| read(&it.1))
            .collect();
        middle(&times)
    }

    pub fn filter(&self, kind: Kind) -> f64 {
        self.of(kind, |it| it[0])
    }

    pub fn with_pdep(&self, kind: Kind) -> f64 {
        self.of(kind, |it| it[1])
    }

    pub fn without_pdep(&self, kind: Kind) -> f64 {
        self.of(kind, |it| it[2])
    }

    /// The middle one of the ratios of the steps.
    pub fn against(&self, kind: Kind, pdep: bool) -> f64 {
        self.of(kind, |it| it[0] / it[if pdep { 1 } else { 2 }])
    }
}

/// A session under way.
struct Running {
    steps: Rc<[Step]>,
    at: usize,
    begun: Instant,
    with_pdep: Plain<true>,
    without_pdep: Plain<false>,
    measured: Measured,
    fault: Option<String>,
}

thread_local! {
    static RUNNING: RefCell<Option<Running>> = const { RefCell::new(None) };
}

impl Session {
    pub fn run(&self, serve: Serve) -> Result<Measured, String> {
        let most = self.steps.iter().map(|it| it.list.len()).max().unwrap_or(0);
        let mut words = vec![0; self.blocks * (self.r as usize + 3)];
        let mut list = vec![0; most];
        let running = Running {
            steps: self.steps.clone(),
            at: 0,
            begun: Instant::now(),
            with_pdep: Plain::new(self.r, self.blocks),
            without_pdep: Plain::new(self.r, self.blocks),
            measured: Measured::default(),
            fault: None,
        };
        RUNNING.set(Some(running));
        let served = calls::serve(
            serve,
            self.q,
            self.r,
            &mut words,
            &mut list,
            self.steps.len() as u32,
        );
        let running = RUNNING.take().ok_or("no session")?;
        match running.fault {
            Some(fault) => Err(fault),
            None if !served => Err("the filter refused the plan".into()),
            None => Ok(running.measured),
        }
    }
}

/// Hands out the list of the next step, and begins its time.
pub fn next(list: &mut [u64], many: &mut u64) -> u32 {
    RUNNING.with_borrow_mut(|running| {
        let Some(running) = running else { return 0 };
        let step = &running.steps[running.at];
        list[..step.list.len()].copy_from_slice(&step.list);
        *many = step.list.len() as u64;
        running.begun = Instant::now();
        match step.kind {
            Kind::AskHeld | Kind::AskAbsent => 0,
            Kind::Add => 1,
            Kind::Take => 2,
            Kind::LayOut => 3,
        }
    })
}

/// Ends the time of the step, has the plain filters do the same, and compares.
pub fn done(count: u64, words: &[u64]) {
    let ended = Instant::now();
    RUNNING.with_borrow_mut(|running| {
        let Some(running) = running else { return };
        if running.fault.is_some() {
            running.at += 1;
            return;
        }
        let steps = running.steps.clone();
        let step = &steps[running.at];
        let (with, with_count) = timed(&mut running.with_pdep, step);
        let (without, without_count) = timed(&mut running.without_pdep, step);
        let filter = (ended - running.begun).as_nanos() as f64 / step.list.len() as f64;
        running
            .measured
            .steps
            .push((step.kind, [filter, with, without]));
        running.at += 1;
        if [count, with_count, without_count] != [step.count; 3] {
            running.fault.get_or_insert(format!(
                "step {}, {:?}: counted {count}, {with_count} and {without_count}, not {}",
                running.at, step.kind, step.count
            ));
        }
        if words != running.with_pdep.words() || words != running.without_pdep.words() {
            running.fault.get_or_insert(format!(
                "step {}, {:?}: the words differ",
                running.at, step.kind
            ));
        }
    });
}

/// Nanoseconds for each call of a step, and what was counted.
fn timed<const PDEP: bool>(filter: &mut Plain<PDEP>, step: &Step) -> (f64, u64)
where
    Plain<PDEP>: Calls,
{
    let mut list = step.list.to_vec();
    let begun = Instant::now();
    let count = match step.kind {
        Kind::AskHeld | Kind::AskAbsent => filter.ask(black_box(&list)),
        Kind::Add => filter.add_all(black_box(&list)),
        Kind::Take => filter.take_all(black_box(&list)),
        Kind::LayOut => u64::from(filter.lay_out(&mut list)),
    };
    (
        begun.elapsed().as_nanos() as f64 / step.list.len() as f64,
        black_box(count),
    )
}
