//! Comparing, and counting what was compared.

use std::fmt::Debug;
use std::time::Instant;

/// `Err` holds the first difference in full.
pub type Outcome = Result<(), String>;

/// Counts of one kind of comparison, by the number that was expected: 0 for
/// accepted, else the refusal's.
pub struct Tally {
    name: &'static str,
    counts: [u64; 16],
}

impl Tally {
    pub fn new(name: &'static str) -> Tally {
        Tally {
            name,
            counts: [0; 16],
        }
    }

    /// Counts a case of this number and compares it.
    pub fn same<T: PartialEq + Debug>(
        &mut self,
        number: u64,
        expected: T,
        got: T,
        input: impl FnOnce() -> String,
    ) -> Outcome {
        self.counts[number.min(15) as usize] += 1;
        if expected == got {
            return Ok(());
        }
        Err(format!(
            "{}\n  input: {}\n  expected: {expected:?}\n  got: {got:?}",
            self.name,
            input()
        ))
    }

    /// Counts a case of this number and holds it to be true.
    pub fn holds(&mut self, number: u64, holds: bool, input: impl FnOnce() -> String) -> Outcome {
        self.same(number, true, holds, input)
    }

    fn total(&self) -> u64 {
        self.counts.iter().sum()
    }

    fn text(&self) -> String {
        let mut parts = Vec::new();
        for (number, &count) in self.counts.iter().enumerate() {
            match (number, count) {
                (_, 0) => {}
                (0, _) => parts.push(format!("accepted {count}")),
                _ => parts.push(format!("refused {number}: {count}")),
            }
        }
        format!("{} {} ({})", self.name, self.total(), parts.join(", "))
    }
}

/// Counts of cases that ought to have come up.
pub struct Features(Vec<(&'static str, u64)>);

impl Features {
    pub fn new(names: &[&'static str]) -> Features {
        Features(names.iter().map(|&name| (name, 0)).collect())
    }

    pub fn count(&mut self, name: &str, is: bool) {
        let entry = self.0.iter_mut().find(|(known, _)| *known == name);
        entry.expect("a known name").1 += u64::from(is);
    }
}

pub struct Group {
    name: &'static str,
    begun: Instant,
}

impl Group {
    pub fn new(name: &'static str) -> Group {
        Group {
            name,
            begun: Instant::now(),
        }
    }

    /// Prints the group's line and answers how much was compared. Each tally
    /// comes with the numbers that must have occurred.
    pub fn finish(self, tallies: &[(&Tally, &[u64])], features: &Features) -> Result<u64, String> {
        let mut parts: Vec<String> = tallies.iter().map(|(tally, _)| tally.text()).collect();
        for (name, count) in &features.0 {
            parts.push(format!("{name} {count}"));
        }
        let seconds = self.begun.elapsed().as_secs_f64();
        println!("{} [{seconds:.1} s]: {}", self.name, parts.join("; "));
        for (tally, numbers) in tallies {
            for &number in *numbers {
                if tally.counts[number as usize] == 0 {
                    return Err(format!("{}: number {number} never occurred", tally.name));
                }
            }
        }
        for (name, count) in &features.0 {
            if *count == 0 {
                return Err(format!("{}: never occurred: {name}", self.name));
            }
        }
        Ok(tallies.iter().map(|(tally, _)| tally.total()).sum())
    }
}
