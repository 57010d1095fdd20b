//! An axis: where on it a number lies, and the numbers that are written to it.

/// From the least number to the most, along so many pixels.
pub struct Scale {
    least: f64,
    most: f64,
    from: f64,
    to: f64,
    pub logarithmic: bool,
}

impl Scale {
    /// Logarithmic where the numbers, of which 1 is one, span more than a
    /// decade; otherwise it begins at 0.
    pub fn fitting(numbers: impl Iterator<Item = f64> + Clone, [from, to]: [f64; 2]) -> Self {
        let least = numbers.clone().fold(1.0, f64::min);
        let most = numbers.fold(1.0, f64::max);
        let logarithmic = most / least > 10.0;
        Self {
            least: if logarithmic { least * 0.95 } else { 0.0 },
            most: most * 1.05,
            from,
            to,
            logarithmic,
        }
    }

    /// Logarithmic, from one number to another.
    pub fn logarithmic([least, most]: [f64; 2], [from, to]: [f64; 2]) -> Self {
        Self {
            least,
            most,
            from,
            to,
            logarithmic: true,
        }
    }

    pub fn at(&self, number: f64) -> f64 {
        let share = if self.logarithmic {
            (number / self.least).ln() / (self.most / self.least).ln()
        } else {
            (number - self.least) / (self.most - self.least)
        };
        self.from + share * (self.to - self.from)
    }

    pub fn decades(&self) -> Vec<f64> {
        let mut decades: Vec<f64> = (-3..=12).map(|decade| 10_f64.powi(decade)).collect();
        decades.retain(|&decade| decade >= self.least && decade <= self.most);
        decades
    }

    /// 1, 2 and 5 of each decade where it is logarithmic, else seven at most.
    pub fn ticks(&self) -> Vec<f64> {
        let mut ticks: Vec<f64> = if self.logarithmic {
            let decades = -3..=9;
            decades
                .flat_map(|decade| [1.0, 2.0, 5.0].map(|digit| digit * 10_f64.powi(decade)))
                .collect()
        } else {
            let steps = [0.25, 0.5, 1.0, 2.0];
            let step = steps.into_iter().find(|step| self.most / step <= 6.0);
            (0..=6)
                .map(|k| f64::from(k) * step.unwrap_or(2.0))
                .collect()
        };
        ticks.retain(|&tick| tick >= self.least && tick <= self.most);
        ticks
    }
}
