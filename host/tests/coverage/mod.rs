//! Counts of what random cases met.

use std::collections::BTreeMap;
use std::fmt::Display;

/// How often each of the classes of one kind was met.
pub struct Tally<K> {
    kind: &'static str,
    counts: BTreeMap<K, u64>,
}

impl<K: Copy + Ord + Display> Tally<K> {
    /// A tally of classes, all of which are to be met.
    pub fn new(kind: &'static str, classes: impl IntoIterator<Item = K>) -> Tally<K> {
        Tally { kind, counts: classes.into_iter().map(|class| (class, 0)).collect() }
    }

    /// A class was met. One that isn't among the tally's is no matter.
    pub fn met(&mut self, class: K) {
        self.add(class, 1);
    }

    pub fn add(&mut self, class: K, times: u64) {
        if let Some(count) = self.counts.get_mut(&class) {
            *count += times;
        }
    }

    /// Prints the counts, and fails where a class was never met.
    pub fn report(&self) {
        let (least, most) = (self.counts.values().min(), self.counts.values().max());
        if self.counts.len() > 40 {
            let (first, last) = (self.counts.keys().next(), self.counts.keys().next_back());
            if let (Some(first), Some(last), Some(least), Some(most)) = (first, last, least, most) {
                println!("{}: {first} to {last}, each {least} to {most} times", self.kind);
            }
        } else {
            let counts: Vec<String> =
                self.counts.iter().map(|(class, count)| format!("{class} {count}")).collect();
            println!("{}: {}", self.kind, counts.join(", "));
        }
        let never: Vec<String> = self
            .counts
            .iter()
            .filter(|(_, &count)| count == 0)
            .map(|(class, _)| class.to_string())
            .collect();
        assert!(never.is_empty(), "{}, never met: {}", self.kind, never.join(", "));
    }
}
