//! Figures in columns, and what stands beside them.

use crate::time::Time;

/// A time in µs, and its spread.
pub fn timed(time: Time) -> String {
    format!("{:>12.2}{:>4.0}%", time.median * 1e6, time.spread * 100.0)
}

pub fn ratio(value: Option<f64>, other: Option<f64>) -> Option<f64> {
    Some(value? / other?)
}

/// A number with so many digits behind the point, or a dash, in so many columns.
pub fn value(number: Option<f64>, width: usize, digits: usize) -> String {
    match number {
        Some(number) => format!("{number:>width$.digits$}"),
        None => format!("{:>width$}", "-"),
    }
}

/// Whether a figure is within its bar, where it has one.
pub fn held(figure: f64, bar: Option<f64>) -> String {
    match bar {
        Some(bar) if figure <= bar => format!(", bar {bar}: met"),
        Some(bar) => format!(", bar {bar}: missed"),
        None => String::new(),
    }
}

/// The machine's kind.
pub fn machine() -> String {
    let text = std::fs::read_to_string("/proc/cpuinfo").unwrap_or_default();
    let mut kinds = text.lines().filter(|line| line.starts_with("model name"));
    let kind = kinds.next().and_then(|line| line.split(": ").nth(1));
    let kind = kind.unwrap_or("a processor of unknown kind");
    format!("{kind}, {} of them", 1 + kinds.count())
}
