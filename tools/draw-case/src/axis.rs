//! A time axis: ticks onto pixels, and where its numbers stand.

/// The ticks that are drawn, onto pixels from the left end on.
#[derive(Clone, Copy)]
pub struct Axis {
    pub begin: i64,
    pub end: i64,
    pub left: f64,
    pub width: f64,
}

impl Axis {
    pub fn x(&self, tick: i64) -> f64 {
        let part = (tick - self.begin) as f64 / (self.end - self.begin).max(1) as f64;
        self.left + part * self.width
    }

    pub fn shows(&self, tick: i64) -> bool {
        self.begin <= tick && tick <= self.end
    }

    /// The ticks that carry a number: multiples of 1, 2 or 5 times a power of ten, so many pixels apart or
    /// more.
    pub fn numbers(&self, apart: f64) -> Vec<i64> {
        let least = apart * (self.end - self.begin).max(1) as f64 / self.width;
        let powers = (0..18).map(|power| 10_i64.pow(power));
        let steps = powers.flat_map(|power| [power, 2 * power, 5 * power]);
        let step = steps.into_iter().find(|step| *step as f64 >= least).expect("a step");
        let first = self.begin.div_euclid(step) * step;
        (0..)
            .map(|n| first + n * step)
            .take_while(|tick| *tick <= self.end)
            .filter(|t| self.shows(*t))
            .collect()
    }
}

#[cfg(test)]
mod tests {
    use super::*;

    #[test]
    fn numbers_are_round_and_apart() {
        let spans =
            [(-1, 1), (-1, 55), (0, 100), (-1, 199), (700, 1431), (0, 100_000), (-159, 1_000_000)];
        for (begin, end) in spans {
            let axis = Axis { begin, end, left: 200.0, width: 1000.0 };
            let numbers = axis.numbers(70.0);
            assert!((1..=14).contains(&numbers.len()), "{numbers:?}");
            assert!(numbers.iter().all(|tick| axis.shows(*tick)));
            assert!(numbers.windows(2).all(|pair| axis.x(pair[1]) - axis.x(pair[0]) >= 70.0));
        }
        let axis = Axis { begin: -1, end: 203, left: 0.0, width: 1000.0 };
        assert_eq!(axis.numbers(70.0), (0..=10).map(|n| 20 * n).collect::<Vec<i64>>());
    }
}
