//! Measuring several contenders beside one another.

use std::hint::black_box;
use std::time::{Duration, Instant};

/// One sample takes about this long, or one call where that is longer.
const SAMPLE: Duration = Duration::from_micros(50);
const ROUNDS: usize = 1000;
/// A contender whose calls are slow gets fewer rounds.
const PATIENCE: Duration = Duration::from_millis(400);

pub struct Contender<'a> {
    call: Box<dyn FnMut() + 'a>,
    calls: u32,
    rounds: usize,
    least: f64,
}

impl<'a> Contender<'a> {
    /// What the call answers is kept from being optimised away.
    pub fn new<T>(mut answer: impl FnMut() -> T + 'a) -> Contender<'a> {
        let mut call = move || {
            black_box(answer());
        };
        let mut calls = 1;
        let mut took = time(&mut call, calls);
        while took < SAMPLE && calls < 1 << 20 {
            calls *= 2;
            took = time(&mut call, calls);
        }
        let rounds = (PATIENCE.as_nanos() / took.as_nanos().max(1)) as usize;
        Contender {
            call: Box::new(call),
            calls,
            rounds: rounds.clamp(1, ROUNDS),
            least: f64::INFINITY,
        }
    }
}

fn time(call: &mut impl FnMut(), calls: u32) -> Duration {
    let start = Instant::now();
    for _ in 0..calls {
        call();
    }
    start.elapsed()
}

/// The least ns that a call of each contender took. They take turns, so that what else the machine does hurts all of them alike.
pub fn least<const N: usize>(mut contenders: [Contender; N]) -> [f64; N] {
    for round in 0..ROUNDS {
        for contender in contenders.iter_mut() {
            if round < contender.rounds {
                let took = time(&mut contender.call, contender.calls);
                let each = took.as_nanos() as f64 / f64::from(contender.calls);
                contender.least = contender.least.min(each);
            }
        }
    }
    contenders.map(|contender| contender.least)
}
