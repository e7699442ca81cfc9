//! Several measurements of one thing: the median and the quartiles.

/// Measurements in order of size.
#[derive(Clone)]
pub struct Sample(Vec<f64>);

impl Sample {
    /// At least one measurement.
    pub fn new(mut measured: Vec<f64>) -> Sample {
        assert!(!measured.is_empty(), "at least one measurement");
        measured.sort_by(f64::total_cmp);
        Sample(measured)
    }

    /// The measurement at a share of the way from the least to the greatest.
    fn at(&self, share: f64) -> f64 {
        self.0[((self.0.len() - 1) as f64 * share).round() as usize]
    }

    /// The one in the middle.
    pub fn median(&self) -> f64 {
        self.at(0.5)
    }

    /// The least, which other work on the machine disturbs least.
    #[cfg(feature = "leaves")]
    pub fn least(&self) -> f64 {
        self.at(0.0)
    }

    /// The median, then the quartiles in brackets.
    pub fn show(&self) -> String {
        let [median, low, high] = [0.5, 0.25, 0.75].map(|share| self.at(share));
        format!("{median:.2} [{low:.2}, {high:.2}]")
    }
}
