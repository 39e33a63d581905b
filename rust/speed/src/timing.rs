//! Times a call: rounds of many calls, and the fastest round and the middle one.

use std::hint::black_box;
use std::time::{Duration, Instant};

/// How long a round lasts, about.
const ROUND: Duration = Duration::from_millis(40);

/// Nanoseconds a call.
#[derive(Debug, Clone, Copy)]
pub struct Time {
    pub fastest: f64,
    pub middle: f64,
}

fn round(calls: u64, mut call: impl FnMut()) -> Duration {
    let start = Instant::now();
    for _ in 0..calls {
        call();
    }
    start.elapsed()
}

/// So many calls that a round lasts as long as it should.
fn calls(mut call: impl FnMut()) -> u64 {
    let mut calls = 1;
    loop {
        let took = round(calls, &mut call);
        if took >= ROUND / 4 {
            let wanted = ROUND.as_secs_f64() / took.as_secs_f64() * calls as f64;
            return (wanted as u64).max(1);
        }
        calls *= 2;
    }
}

fn time(mut rounds: Vec<f64>) -> Time {
    rounds.sort_by(f64::total_cmp);
    Time {
        fastest: rounds[0],
        middle: rounds[rounds.len() / 2],
    }
}

/// Both calls in turn, `rounds` times, so that a slow moment of the machine meets both.
pub fn both<A, B>(
    rounds: usize,
    mut first: impl FnMut() -> A,
    mut second: impl FnMut() -> B,
) -> [Time; 2] {
    let mut first = || {
        black_box(first());
    };
    let mut second = || {
        black_box(second());
    };
    let (first_calls, second_calls) = (calls(&mut first), calls(&mut second));
    let mut times = [Vec::new(), Vec::new()];
    for _ in 0..rounds {
        let each = |calls: u64, took: Duration| took.as_nanos() as f64 / calls as f64;
        times[0].push(each(first_calls, round(first_calls, &mut first)));
        times[1].push(each(second_calls, round(second_calls, &mut second)));
    }
    times.map(time)
}

/// One call alone.
pub fn one<A>(rounds: usize, call: impl FnMut() -> A) -> Time {
    both(rounds, call, || ())[0]
}
