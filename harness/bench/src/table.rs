//! The one table: a row for each workload and case, as docs/PERFORMANCE.md has it.

/// What one call takes, in nanoseconds.
pub struct Row {
    pub workload: &'static str,
    pub size: String,
    pub case: String,
    pub rust: f64,
    pub port: f64,
    pub clearing: Option<Clearing>,
}

/// Of a call that clears lent slices, which the Rust has not: the clearing alone, and the call with it.
pub struct Clearing {
    pub alone: f64,
    pub whole_call: f64,
}

pub fn print_head() {
    println!("| workload | size | case | Rust | port | ratio | clearing | whole call | ratio |");
    println!("|---|---|---|---|---|---|---|---|---|");
}

impl Row {
    pub fn print(&self) {
        let Row { workload, size, case, rust, port, clearing } = self;
        let clearing = match clearing {
            None => "| | |".to_string(),
            Some(Clearing { alone, whole_call }) => {
                format!("{} | {} | {:.2} |", whole(*alone), whole(*whole_call), whole_call / rust)
            }
        };
        println!(
            "| {workload} | {size} | {case} | {} | {} | {:.2} | {clearing}",
            whole(*rust),
            whole(*port),
            port / rust
        );
    }
}

/// A whole number with commas between its thousands.
pub fn whole(number: f64) -> String {
    let digits = format!("{number:.0}");
    let mut shown = String::new();
    for (k, digit) in digits.chars().enumerate() {
        let behind = digits.len() - k;
        if k > 0 && behind.is_multiple_of(3) {
            shown.push(',');
        }
        shown.push(digit);
    }
    shown
}

#[cfg(test)]
mod tests {
    use super::whole;

    #[test]
    fn thousands_are_parted() {
        assert_eq!(
            [0.0, 999.4, 1_000.0, 65_536.0, 123_456_789.0].map(whole),
            ["0", "999", "1,000", "65,536", "123,456,789"]
        );
    }
}
