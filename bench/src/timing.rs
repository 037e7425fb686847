//! Time of a call: the smallest of many batches, since whatever else runs only adds.

use std::time::{Duration, Instant};

/// A batch is at least this long.
const BATCH: Duration = Duration::from_millis(4);
const ROUNDS: u32 = 8;
/// A call that takes so many nanoseconds has one round after its first batch.
const LONG: f64 = 3e8;

/// A call that answers the same number each time; `run` makes so many.
pub struct Call<'a> {
    run: Box<dyn FnMut(u32) + 'a>,
    count: u32,
    best: f64,
    spent: Duration,
}

impl<'a> Call<'a> {
    pub fn new(mut one: impl FnMut() -> u64 + 'a) -> Call<'a> {
        let answer = one();
        let run = move |count| {
            for _ in 0..count {
                assert_eq!(one(), answer, "a call answers differently");
            }
        };
        let mut call = Call {
            run: Box::new(run),
            count: 1,
            best: f64::INFINITY,
            spent: Duration::default(),
        };
        while call.batch() < BATCH {
            call.count *= 2;
        }
        call.spent = Duration::default();
        call
    }

    fn batch(&mut self) -> Duration {
        let start = Instant::now();
        (self.run)(self.count);
        let took = start.elapsed();
        self.best = self
            .best
            .min(took.as_nanos() as f64 / f64::from(self.count));
        self.spent += took;
        took
    }
}

/// Nanoseconds of each call. They are run in turn until each has had its rounds and the time.
pub fn in_turn<const N: usize>(mut calls: [Call; N], time: Duration) -> [f64; N] {
    let mut rounds = 0;
    loop {
        let mut is_done = true;
        for call in calls.iter_mut() {
            if call.spent < time || (rounds < ROUNDS && call.best < LONG) {
                call.batch();
                is_done = false;
            }
        }
        if is_done {
            return calls.map(|call| call.best);
        }
        rounds += 1;
    }
}
