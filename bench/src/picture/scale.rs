//! Where a size and a ratio lie in a panel.

/// What of a panel the lines have, from its upper left corner.
#[derive(Clone, Copy)]
pub struct Frame {
    pub left: f64,
    pub right: f64,
    pub top: f64,
    pub bottom: f64,
}

/// The least and the greatest number that is drawn.
#[derive(Clone, Copy)]
pub struct Bounds {
    least: f64,
    greatest: f64,
}

/// How sizes go from left to right and ratios from the bottom to the top, by their logarithms.
#[derive(Clone, Copy)]
pub struct Scale {
    pub sizes: Bounds,
    pub ratios: Bounds,
    pub frame: Frame,
}

/// The bounds of the numbers, which are more than one.
pub fn around(numbers: impl Iterator<Item = f64>) -> Bounds {
    let mut bounds = Bounds {
        least: f64::INFINITY,
        greatest: 0.0,
    };
    for number in numbers {
        bounds.least = bounds.least.min(number);
        bounds.greatest = bounds.greatest.max(number);
    }
    bounds
}

impl Bounds {
    /// Whether the number is drawn.
    pub fn has(&self, number: f64) -> bool {
        self.least <= number && number <= self.greatest
    }

    // How far the number is from the least, 1 being the greatest.
    fn share(&self, number: f64) -> f64 {
        (number / self.least).ln() / (self.greatest / self.least).ln()
    }
}

impl Scale {
    /// Where the size lies, from the left.
    pub fn x(&self, size: f64) -> f64 {
        let Frame { left, right, .. } = self.frame;
        left + self.sizes.share(size) * (right - left)
    }

    /// Where the ratio lies, from the top.
    pub fn y(&self, ratio: f64) -> f64 {
        let Frame { top, bottom, .. } = self.frame;
        bottom - self.ratios.share(ratio) * (bottom - top)
    }
}
