//! What is measured, as lines of text.

const NAME: usize = 42;
const TIME: usize = 14;
const RATIO: usize = 9;

/// Two times side by side, and the first over the second.
pub struct Table;

impl Table {
    pub fn new(title: &str, sides: [&str; 2], unit: &str) -> Table {
        eprintln!("bench: {title}");
        let unit = format!("ns a {unit}");
        println!("\n{title:<NAME$}{:>TIME$}{:>TIME$}", sides[0], sides[1]);
        println!("{:<NAME$}{unit:>TIME$}{unit:>TIME$}{:>RATIO$}", "", "ratio");
        Table
    }

    pub fn row(&self, name: &str, times: [f64; 2]) {
        let [left, right] = times;
        let ratio = left / right;
        println!("{name:<NAME$}{left:>TIME$.1}{right:>TIME$.1}{ratio:>RATIO$.2}");
    }

    /// A word on what the lines above show.
    pub fn note(&self, text: &str) {
        println!("  {text}");
    }
}
