//! How often something was met.

use std::collections::BTreeMap;

#[derive(Default)]
pub struct Tally(BTreeMap<String, u32>);

impl Tally {
    pub fn add(&mut self, what: impl Into<String>) {
        *self.0.entry(what.into()).or_default() += 1;
    }

    pub fn add_if(&mut self, holds: bool, what: &str) {
        if holds {
            self.add(what);
        }
    }

    pub fn show(&self, title: &str) {
        println!("{title}");
        for (what, count) in &self.0 {
            println!("{count:8} {what}");
        }
    }

    /// Each was met so often at least.
    pub fn expect(&self, expected: &[(&str, u32)]) {
        for (what, least) in expected {
            let count = self.0.get(*what).copied().unwrap_or(0);
            assert!(count >= *least, "only {count}: {what}");
        }
    }
}
