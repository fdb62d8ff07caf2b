//! An axis: its range, and ticks at round numbers.

/// About the most steps between the ends of an axis.
const STEPS: f64 = 8.0;

pub struct Axis {
    low: f64,
    high: f64,
    step: Step,
    /// How many steps from 0 the first and the last tick are.
    first: f64,
    last: f64,
}

/// A number to be read at a tick.
pub struct Tick {
    pub value: f64,
    pub label: String,
}

/// 1, 2 or 5 times a power of ten.
struct Step {
    digit: f64,
    power: i32,
}

impl Step {
    /// The least step that makes no more than the most steps of a range this long.
    fn of(range: f64) -> Step {
        let least = range / STEPS;
        let power = least.log10().floor() as i32;
        let steps = [1.0, 2.0, 5.0].map(|digit| Step { digit, power });
        steps.into_iter().find(|step| step.size() >= least).unwrap_or(Step { digit: 1.0, power: power + 1 })
    }

    fn size(&self) -> f64 {
        self.times(1.0)
    }

    /// So many steps. Division by a power of ten is nearer than multiplication by a fraction.
    fn times(&self, count: f64) -> f64 {
        match self.power {
            0.. => count * self.digit * 10_f64.powi(self.power),
            _ => count * self.digit / 10_f64.powi(-self.power),
        }
    }
}

impl Axis {
    /// From one whole number to another that is greater, with ticks at whole numbers.
    pub fn exact(low: f64, high: f64) -> Axis {
        let step = Step::of(high - low);
        let step = if step.power < 0 { Step { digit: 1.0, power: 0 } } else { step };
        let (first, last) = ((low / step.size()).ceil(), (high / step.size()).floor());
        Axis { low, high, step, first, last }
    }

    /// From a tick at or below the low end to one at or above the high end; of length 1 at least where the ends are equal.
    pub fn rounded(low: f64, high: f64) -> Axis {
        let (low, high) = if low < high { (low, high) } else { (low, low + 1.0) };
        let step = Step::of(high - low);
        let (first, last) = ((low / step.size()).floor(), (high / step.size()).ceil());
        Axis { low: step.times(first), high: step.times(last), step, first, last }
    }

    /// How far along the axis a value is, from 0 to 1.
    pub fn share(&self, value: f64) -> f64 {
        (value - self.low) / (self.high - self.low)
    }

    pub fn ticks(&self) -> Vec<Tick> {
        let decimals = (-self.step.power).max(0) as usize;
        let values = (self.first as i64..=self.last as i64).map(|count| self.step.times(count as f64));
        values.map(|value| Tick { value, label: grouped(&format!("{:.*}", decimals, value)) }).collect()
    }
}

/// A decimal with a comma before each three digits of its whole part.
fn grouped(decimal: &str) -> String {
    let whole = decimal.find('.').unwrap_or(decimal.len());
    let mut text = String::new();
    for (i, character) in decimal.char_indices() {
        let follows_digit = text.ends_with(|before: char| before.is_ascii_digit());
        if i < whole && follows_digit && (whole - i) % 3 == 0 {
            text.push(',');
        }
        text.push(character);
    }
    text
}
