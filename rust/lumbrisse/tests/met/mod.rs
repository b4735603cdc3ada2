//! How often a test meets what it is meant to, so that none passes for want of it.

use std::collections::BTreeMap;

/// How often each thing was met.
#[derive(Default)]
pub struct Met(BTreeMap<&'static str, usize>);

impl Met {
    pub fn count(&mut self, what: &'static str, met: bool) {
        *self.0.entry(what).or_insert(0) += usize::from(met);
    }

    /// Sees to it that something was met at least once in so many times.
    pub fn often(&self, what: &str, times: usize, once_in: usize) {
        let count = self.0[what];
        assert!(count * once_in >= times, "{what}: {count} of {times}");
    }

    /// The same of everything.
    pub fn all_often(&self, times: usize, once_in: usize) {
        println!("of {times}: {:?}", self.0);
        for what in self.0.keys() {
            self.often(what, times, once_in);
        }
    }
}
