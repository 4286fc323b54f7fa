//! Values of several passes, and how they are said.

/// A value of each pass.
#[derive(Clone, Default)]
pub struct Series(pub Vec<f64>);

impl Series {
    /// This by the other, pass by pass.
    pub fn over(&self, other: &Series) -> Series {
        Series(self.0.iter().zip(&other.0).map(|(value, other)| value / other).collect())
    }

    /// This less the other, pass by pass.
    pub fn less(&self, other: &Series) -> Series {
        Series(self.0.iter().zip(&other.0).map(|(value, other)| value - other).collect())
    }

    /// From the least to the greatest; a dash where nothing was measured.
    pub fn say(&self, unit: Unit) -> String {
        let Some(least) = self.0.iter().copied().reduce(f64::min) else { return "-".into() };
        let greatest = self.0.iter().copied().fold(least, f64::max);
        let (least, greatest) = (unit.digits(least), unit.digits(greatest));
        let unit = unit.name();
        if least == greatest {
            format!("{least}{unit}")
        } else {
            format!("{least} to {greatest}{unit}")
        }
    }
}

/// How a value is said. Times are seconds.
#[derive(Clone, Copy)]
pub enum Unit {
    Ratio,
    Number,
    Milliseconds,
    Microseconds,
    Nanoseconds,
}

impl Unit {
    fn name(self) -> &'static str {
        match self {
            Unit::Ratio | Unit::Number => "",
            Unit::Milliseconds => " ms",
            Unit::Microseconds => " µs",
            Unit::Nanoseconds => " ns",
        }
    }

    fn digits(self, value: f64) -> String {
        match self {
            Unit::Ratio => short(value),
            Unit::Number => thousands(value),
            Unit::Milliseconds => short(value * 1e3),
            Unit::Microseconds => thousands(value * 1e6),
            Unit::Nanoseconds => thousands(value * 1e9),
        }
    }
}

/// Two digits, or all before the point.
fn short(value: f64) -> String {
    match value.abs() {
        size if size < 0.995 => format!("{value:.2}"),
        size if size < 9.95 => format!("{value:.1}"),
        _ => thousands(value),
    }
}

/// Three digits, and then zeros, in groups of three.
fn thousands(value: f64) -> String {
    let step = 10f64.powi((value.abs().max(1.0).log10() as i32 - 2).max(0));
    let digits = format!("{:.0}", (value.abs() / step).round() * step);
    let mut text = String::new();
    if value < 0.0 {
        text.push('-');
    }
    for (place, digit) in digits.chars().enumerate() {
        if place > 0 && (digits.len() - place) % 3 == 0 {
            text.push(',');
        }
        text.push(digit);
    }
    text
}

/// The value in the middle.
pub fn median(mut values: Vec<f64>) -> f64 {
    values.sort_by(f64::total_cmp);
    values[values.len() / 2]
}

#[cfg(test)]
mod tests {
    use super::*;

    #[test]
    fn numbers_are_said_in_few_digits() {
        let said = |value| Series(vec![value]).say(Unit::Number);
        assert_eq!([0.0, 7.4, 99.6, 1234.0].map(said), ["0", "7", "100", "1,230"]);
        assert_eq!([123_456.0, 999_999.0, -186.0, -1234.0].map(said), ["123,000", "1,000,000", "-186", "-1,230"]);
        assert_eq!(
            [0.0123, 0.996, 9.94, 9.96, 123.4].map(|value| Series(vec![value]).say(Unit::Ratio)),
            ["0.01", "1.0", "9.9", "10", "123"]
        );
    }

    #[test]
    fn a_series_is_a_range() {
        assert_eq!(Series(vec![0.0021, 0.0012]).say(Unit::Milliseconds), "1.2 to 2.1 ms");
        assert_eq!(Series(vec![0.00121, 0.00122]).say(Unit::Milliseconds), "1.2 ms");
        assert_eq!(Series::default().say(Unit::Ratio), "-");
        assert_eq!(Series(vec![6.0, 4.0]).over(&Series(vec![3.0])).0, [2.0]);
    }
}
