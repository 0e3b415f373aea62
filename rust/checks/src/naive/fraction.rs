//! Fractions of whole numbers, and the floats nearest to them.

/// A fraction below 2^53.
#[derive(Clone, Copy, Debug)]
pub struct Fraction {
    pub top: u128,
    pub bottom: u128,
}

impl Fraction {
    /// The fraction rounded down.
    pub fn whole(self) -> u128 {
        self.top / self.bottom
    }

    /// The nearest 64-bit float, and of two that are as near the even one.
    ///
    /// From 2^52 to 2^53 the floats are just the whole numbers. So the fraction is
    /// doubled until it lies there, rounded to a whole number, and halved as often:
    /// doubling and halving lose nothing.
    pub fn nearest_float(self) -> f64 {
        if self.top == 0 {
            return 0.0;
        }
        let mut doubled = self;
        let mut times = 0;
        while doubled.whole() < 2u128.pow(52) {
            doubled.top *= 2;
            times += 1;
        }
        let mut float = doubled.nearest_whole() as f64;
        for _ in 0..times {
            float *= 0.5;
        }
        float
    }

    /// The nearest whole number, and of two that are as near the even one.
    fn nearest_whole(self) -> u128 {
        let below = self.whole();
        let twice_the_rest = 2 * (self.top % self.bottom);
        let up = twice_the_rest > self.bottom || twice_the_rest == self.bottom && below % 2 == 1;
        if up {
            below + 1
        } else {
            below
        }
    }
}
