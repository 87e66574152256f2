//! How often something came, by name; what is expected is there from the start, so that what never came shows as 0.

use std::collections::BTreeMap;
use std::fmt;
use std::process::ExitCode;

pub struct Counts {
    counts: BTreeMap<String, usize>,
}

impl Counts {
    pub fn expecting(expected: &[(&str, &str)]) -> Counts {
        let mut counts = Counts {
            counts: BTreeMap::new(),
        };
        for (group, endings) in expected {
            counts.expect(group, endings);
        }
        counts
    }

    /// Commas divide the endings.
    pub fn expect(&mut self, group: &str, endings: &str) {
        for ending in endings.split(", ") {
            self.counts.insert(format!("{group} {ending}"), 0);
        }
    }

    pub fn add(&mut self, name: String) {
        *self.counts.entry(name).or_default() += 1;
    }

    pub fn all(&self) -> impl Iterator<Item = (&String, &usize)> {
        self.counts.iter()
    }

    /// A line for each group, which a colon ends.
    pub fn write_groups(&self, f: &mut fmt::Formatter) -> fmt::Result {
        let mut groups: BTreeMap<&str, Vec<String>> = BTreeMap::new();
        for (name, count) in &self.counts {
            let (group, ending) = name.split_once(": ").unwrap_or((name, ""));
            let counted = format!("{ending} ({count})");
            groups.entry(group).or_default().push(counted);
        }
        for (group, counted) in groups {
            writeln!(f, "{group}: {}", counted.join(", "))?;
        }
        Ok(())
    }

    /// Says what never came; a failure if there is any.
    pub fn completeness(&self, trial: &str) -> ExitCode {
        let never = self.counts.iter().filter(|(_, count)| **count == 0);
        let never: Vec<&String> = never.map(|(name, _)| name).collect();
        for name in &never {
            println!("{trial}: never came, though it can: {name}");
        }
        ExitCode::from(u8::from(!never.is_empty()))
    }
}
