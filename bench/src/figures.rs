//! Numbers as the pages print them.

pub fn count(n: usize) -> String {
    if n < 1000 {
        n.to_string()
    } else {
        format!("{},{:03}", count(n / 1000), n % 1000)
    }
}

/// Three digits or more.
pub fn figure(x: f64) -> String {
    if x < 10.0 {
        format!("{x:.2}")
    } else if x < 100.0 {
        format!("{x:.1}")
    } else {
        count(x.round() as usize)
    }
}
