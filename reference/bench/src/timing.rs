//! Times and their noise. Each side of a row is timed in turn, REPEATS times over, so that what disturbs the machine disturbs all
//! sides alike. A value is the median of the repeats, its noise half the distance between their quartiles.

use std::time::{Duration, Instant};

const REPEATS: usize = 11;
const BATCH: Duration = Duration::from_millis(12);

/// Values that should be equal, ascending.
#[derive(Clone)]
pub struct Repeats(Vec<f64>);

impl Repeats {
    fn new(mut values: Vec<f64>) -> Repeats {
        values.sort_by(f64::total_cmp);
        Repeats(values)
    }

    pub fn median(&self) -> f64 {
        self.0[self.0.len() / 2]
    }

    fn noise(&self) -> f64 {
        (self.0[3 * self.0.len() / 4] - self.0[self.0.len() / 4]) / 2.0
    }
}

/// The times of one side, in microseconds for a call, in the order of the repeats.
pub struct Times(Vec<f64>);

impl Times {
    pub fn of(times: Vec<f64>) -> Times {
        Times(times)
    }

    pub fn median(&self) -> f64 {
        Repeats::new(self.0.clone()).median()
    }

    /// The median, with the digits that its noise leaves.
    pub fn shown(&self) -> String {
        let repeats = Repeats::new(self.0.clone());
        let (us, noise) = (repeats.median(), repeats.noise());
        let (scale, unit) = if us < 950.0 {
            (1.0, "µs")
        } else {
            (1000.0, "ms")
        };
        let digits = digits(us / scale, noise / scale);
        format!("{} {unit}", rounded(us / scale, digits))
    }

    /// This side's time divided by the other's, repeat by repeat.
    pub fn over(&self, other: &Times) -> Repeats {
        let pairs = self.0.iter().zip(&other.0);
        Repeats::new(pairs.map(|(a, b)| a / b).collect())
    }
}

/// How many digits behind the point a value with this noise has; negative where even the ones are noise. One figure at least and
/// three at the most.
fn digits(value: f64, noise: f64) -> i32 {
    let first = -value.log10().floor() as i32;
    let by_noise = -noise.max(value / 1000.0).log10().floor() as i32;
    by_noise.clamp(first, first + 2)
}

fn rounded(value: f64, digits: i32) -> String {
    let unit = 10f64.powi(-digits);
    let value = (value / unit).round() * unit;
    format!("{value:.*}", digits.max(0) as usize)
}

/// A ratio with its noise.
pub fn ratio(repeats: &Repeats) -> String {
    let (value, noise) = (repeats.median(), repeats.noise());
    let digits = digits(value, noise);
    let least = 10f64.powi(-digits);
    let noise = rounded(noise.max(least), digits);
    format!("{} ± {noise}", rounded(value, digits))
}

/// The time of `count` calls, and of each of them.
fn batch(call: &mut dyn FnMut(usize), inputs: usize, count: usize) -> (Duration, f64) {
    let start = Instant::now();
    for i in 0..count {
        call(i % inputs);
    }
    let time = start.elapsed();
    (time, time.as_secs_f64() * 1e6 / count as f64)
}

/// Batches of calls that take at least BATCH each.
pub struct Batches(usize);

impl Batches {
    pub fn of(call: &mut dyn FnMut(usize), inputs: usize) -> Batches {
        let mut count = 1;
        while batch(call, inputs, count).0 < BATCH {
            count *= 2;
        }
        Batches(count)
    }

    /// Makes a batch, and gives what a call of it takes, in microseconds.
    pub fn time(&self, call: &mut dyn FnMut(usize), inputs: usize) -> f64 {
        batch(call, inputs, self.0).1
    }
}

/// The times of each side, called with the inputs in turn.
pub fn times(sides: &mut [&mut dyn FnMut(usize)], inputs: usize) -> Vec<Times> {
    let batches = sides.iter_mut().map(|side| Batches::of(side, inputs));
    let batches: Vec<Batches> = batches.collect();
    let mut times: Vec<Vec<f64>> = vec![Vec::new(); sides.len()];
    for _ in 0..REPEATS {
        for (side, (batches, times)) in sides.iter_mut().zip(batches.iter().zip(&mut times)) {
            times.push(batches.time(side, inputs));
        }
    }
    times.into_iter().map(Times).collect()
}

#[cfg(test)]
mod tests {
    use super::*;

    #[test]
    fn a_ratio_has_the_digits_that_its_noise_leaves() {
        let of = |values: &[f64]| ratio(&Repeats::new(values.to_vec()));
        assert_eq!(of(&[0.93, 0.94, 0.94, 0.96]), "0.94 ± 0.01");
        assert_eq!(of(&[9.4, 9.7, 9.8, 10.2]), "9.8 ± 0.3");
        assert_eq!(of(&[230.0, 246.0, 247.0, 270.0]), "250 ± 10");
        assert_eq!(of(&[1.0, 1.0, 1.0, 1.0]), "1.00 ± 0.01");
        assert_eq!(of(&[20.0, 25.0, 31.0, 300.0]), "30 ± 140");
    }
}
