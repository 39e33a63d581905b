//! The values that one sheet's bounds, sketches and literals are made of.

use crate::limits::{LARGEST_FLOAT, SMALLEST_FLOAT};
use crate::random::Random;
use crate::values::Scalar;

#[derive(Debug, Clone, Copy, PartialEq, Eq)]
pub enum Kind {
    Boolean,
    Int32,
    Int64,
    Float64,
    Decimal { precision: u8, scale: u8 },
    Date32,
    MonthDayNano,
    DayTime,
}

/// Rising whole numbers, and how they become scalars of any kind without losing their order.
#[derive(Debug, Clone)]
pub struct Domain {
    /// The kind of most columns, and the kind of the others.
    pub kinds: [Kind; 2],
    pub steps: Vec<i64>,
    /// What a float is worth for each whole number.
    factor: f64,
    /// Which part of an interval carries the number.
    part: usize,
}

impl Domain {
    pub fn draw(random: &mut Random) -> Self {
        let first = kind(random);
        let second = match random.chance(60) {
            true => lookalike(random, first),
            false => kind(random),
        };
        Domain {
            kinds: [first, second],
            steps: steps(random, first),
            factor: factor(random),
            part: random.below(4),
        }
    }

    pub fn kind(&self, random: &mut Random) -> Kind {
        self.kinds[random.weighted(&[85, 15])]
    }

    /// One of the steps, or a number beside one, or one between two.
    pub fn number(&self, random: &mut Random) -> i64 {
        let place = random.below(self.steps.len());
        let step = self.steps[place];
        match random.weighted(&[70, 8, 8, 14]) {
            0 => step,
            1 => step.saturating_add(1),
            2 => step.saturating_sub(1),
            _ => {
                let next = self.steps[(place + 1) % self.steps.len()];
                ((i128::from(step) + i128::from(next)) / 2) as i64
            }
        }
    }

    /// A scalar of a kind that is not Null.
    pub fn value(&self, random: &mut Random, kind: Kind) -> Scalar {
        let number = self.number(random);
        self.scalar(kind, number)
    }

    pub fn scalar(&self, kind: Kind, number: i64) -> Scalar {
        match kind {
            Kind::Boolean => Scalar::Boolean(number > self.steps[self.steps.len() / 2 - 1]),
            Kind::Int32 => Scalar::Int32(narrow(number)),
            Kind::Int64 => Scalar::Int64(number),
            Kind::Float64 => Scalar::Float64(self.float(number)),
            Kind::Decimal { precision, scale } => Scalar::Decimal128 {
                precision,
                scale,
                value: number,
            },
            Kind::Date32 => Scalar::Date32(narrow(number)),
            Kind::MonthDayNano => self.month_day_nano(number),
            Kind::DayTime => self.day_time(number),
        }
    }

    fn float(&self, number: i64) -> f64 {
        match number {
            0 => 0.0,
            i64::MAX => LARGEST_FLOAT,
            i64::MIN => -LARGEST_FLOAT,
            _ => float(number as f64 * self.factor),
        }
    }

    fn month_day_nano(&self, number: i64) -> Scalar {
        let (months, days, nanoseconds) = match self.part {
            0 => (narrow(number), 1, -7),
            1 => (2, narrow(number), 40),
            2 => (-3, 0, number),
            _ => (
                narrow(number.div_euclid(4)),
                number.rem_euclid(4) as i32,
                number,
            ),
        };
        Scalar::IntervalMonthDayNano {
            months,
            days,
            nanoseconds,
        }
    }

    fn day_time(&self, number: i64) -> Scalar {
        let (days, milliseconds) = match self.part {
            0 | 1 => (narrow(number), -5),
            2 => (9, narrow(number)),
            _ => (narrow(number.div_euclid(4)), number.rem_euclid(4) as i32),
        };
        Scalar::IntervalDayTime { days, milliseconds }
    }
}

/// Any kind.
pub fn kind(random: &mut Random) -> Kind {
    match random.weighted(&[6, 17, 17, 18, 19, 11, 6, 6]) {
        0 => Kind::Boolean,
        1 => Kind::Int32,
        2 => Kind::Int64,
        3 => Kind::Float64,
        4 => decimal(random),
        5 => Kind::Date32,
        6 => Kind::MonthDayNano,
        _ => Kind::DayTime,
    }
}

fn decimal(random: &mut Random) -> Kind {
    let usual = [(10, 2), (18, 4), (38, 0), (1, 22), (38, 22), (5, 0)];
    let (precision, scale) = match random.chance(60) {
        true => random.pick(&usual),
        false => (random.between(1, 38) as u8, random.below(23) as u8),
    };
    Kind::Decimal { precision, scale }
}

/// Another kind whose scalars hold much the same number.
pub fn lookalike(random: &mut Random, kind: Kind) -> Kind {
    match kind {
        Kind::Boolean => Kind::Int32,
        Kind::Int32 => random.pick(&[Kind::Int64, Kind::Date32]),
        Kind::Int64 => random.pick(&[Kind::Int32, Kind::Float64]),
        Kind::Float64 => Kind::Int64,
        Kind::Decimal { precision, scale } => unlike_decimal(random, precision, scale),
        Kind::Date32 => Kind::Int32,
        Kind::MonthDayNano => Kind::DayTime,
        Kind::DayTime => Kind::MonthDayNano,
    }
}

/// A decimal of another precision, or of another scale.
fn unlike_decimal(random: &mut Random, precision: u8, scale: u8) -> Kind {
    match random.chance(50) {
        true => Kind::Decimal {
            precision: precision % 38 + 1,
            scale,
        },
        false => Kind::Decimal {
            precision,
            scale: (scale + 1) % 23,
        },
    }
}

/// Four to twelve different numbers that rise. Kinds of 64 bits get numbers that a float rounds.
fn steps(random: &mut Random, kind: Kind) -> Vec<i64> {
    let count = random.between(4, 12);
    let wide = match kind {
        Kind::Int64 | Kind::Decimal { .. } => 14,
        _ => 0,
    };
    let mut steps = match random.weighted(&[46, 15, 13, 12, 14, wide, wide]) {
        0 => gapped(random, count, 25),
        1 => gapped(random, count, 1),
        2 => scattered(random, count),
        3 => with(
            gapped(random, count, 9),
            &[i32::MIN.into(), i32::MAX.into()],
        ),
        4 => with(scattered(random, count), &[i64::MIN, i64::MAX]),
        5 => moved(gapped(random, count, 9), far(random)),
        _ => with(gapped(random, 4, 9), &moved(gapped(random, 4, 9), 1 << 53)),
    };
    steps.sort();
    steps.dedup();
    steps
}

fn gapped(random: &mut Random, count: usize, gap: usize) -> Vec<i64> {
    let mut number = random.between(0, 100) as i64 - 60;
    let mut steps = Vec::new();
    for _ in 0..count {
        steps.push(number);
        number += random.between(1, gap) as i64;
    }
    steps
}

/// A number of 54 to 63 bits, of either sign.
fn far(random: &mut Random) -> i64 {
    let size = 1 << random.between(53, 61);
    random.pick(&[size, -size])
}

fn moved(mut steps: Vec<i64>, by: i64) -> Vec<i64> {
    steps.iter_mut().for_each(|step| *step += by);
    steps
}

/// Numbers of all lengths. Four small ones are among them, so that there are never fewer.
fn scattered(random: &mut Random, count: usize) -> Vec<i64> {
    let mut steps = vec![-1, 0, 1, 50];
    while steps.len() < count {
        let shift = random.below(63);
        steps.push(random.word() as i64 >> shift);
    }
    steps
}

fn with(mut steps: Vec<i64>, ends: &[i64]) -> Vec<i64> {
    steps.extend(ends);
    steps
}

fn factor(random: &mut Random) -> f64 {
    match random.chance(75) {
        true => random.pick(&[1.0, 0.5, 0.1, 1.0 / 3.0, 100.0]),
        false => random.pick(&[
            SMALLEST_FLOAT,
            SMALLEST_FLOAT / 1e9,
            LARGEST_FLOAT,
            1e90,
            1e-90,
            1e15,
        ]),
    }
}

/// So many eighths of the way from one number to another of the same type.
pub fn along(lower: &Scalar, upper: &Scalar, eighths: i64) -> Option<Scalar> {
    let whole = |low: i64, high: i64| {
        let way = (i128::from(high) - i128::from(low)) * i128::from(eighths) / 8;
        (i128::from(low) + way).clamp(i64::MIN.into(), i64::MAX.into()) as i64
    };
    let narrowed = |low: i32, high: i32| narrow(whole(low.into(), high.into()));
    match (*lower, *upper) {
        (Scalar::Int32(low), Scalar::Int32(high)) => Some(Scalar::Int32(narrowed(low, high))),
        (Scalar::Int64(low), Scalar::Int64(high)) => Some(Scalar::Int64(whole(low, high))),
        (Scalar::Date32(low), Scalar::Date32(high)) => Some(Scalar::Date32(narrowed(low, high))),
        (Scalar::Float64(low), Scalar::Float64(high)) => {
            let value = low + (high - low) * (eighths as f64 / 8.0);
            Some(Scalar::Float64(float(value)))
        }
        (
            Scalar::Decimal128 {
                precision,
                scale,
                value: low,
            },
            Scalar::Decimal128 { value: high, .. },
        ) => Some(Scalar::Decimal128 {
            precision,
            scale,
            value: whole(low, high),
        }),
        _ => None,
    }
}

/// Whether a number is above another of the same type.
pub fn falls(lower: &Scalar, upper: &Scalar) -> bool {
    match (*lower, *upper) {
        (Scalar::Int32(low), Scalar::Int32(high)) => low > high,
        (Scalar::Int64(low), Scalar::Int64(high)) => low > high,
        (Scalar::Date32(low), Scalar::Date32(high)) => low > high,
        (Scalar::Float64(low), Scalar::Float64(high)) => low > high,
        (Scalar::Decimal128 { value: low, .. }, Scalar::Decimal128 { value: high, .. }) => {
            low > high
        }
        _ => false,
    }
}

/// The nearest float that a scalar may hold.
fn float(value: f64) -> f64 {
    if value == 0.0 {
        return 0.0;
    }
    value
        .abs()
        .clamp(SMALLEST_FLOAT, LARGEST_FLOAT)
        .copysign(value)
}

fn narrow(number: i64) -> i32 {
    number.clamp(i32::MIN.into(), i32::MAX.into()) as i32
}
