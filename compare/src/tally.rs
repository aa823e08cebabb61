//! How often each thing was met.

use std::collections::BTreeMap;

/// By number: a refusal's, or 100 plus that of a fault; 0 for what is accepted.
pub type Met = BTreeMap<u8, u64>;

/// The numbers of the calls on lists; a list is never cut, so `build` does not give 4.
fn list_numbers() -> impl Iterator<Item = u8> {
    (0..=12).chain([18])
}
const NEVER_BUILT: u8 = 4;

fn merge(to: &mut Met, from: Met) {
    for (number, times) in from {
        *to.entry(number).or_default() += times;
    }
}

/// What a comparison met; tallies of parts are added up.
#[derive(Default)]
pub struct Tally {
    pub tables: u64,
    pub accepted: u64,
    pub ended: u64,
    pub steps: u64,
    /// How often it was compared at a point how many an activity waits for.
    pub counts: u64,
    pub states: u64,
    pub edits: u64,
    pub walks: u64,
    pub lists: u64,
    /// The answers of `build` and of `commands`.
    pub built: Met,
    pub listed: Met,
    /// The numbers of starts, and the answers of steps.
    pub met: Met,
    /// The runs with each feature.
    pub features: BTreeMap<&'static str, u64>,
}

impl Tally {
    pub fn meet(&mut self, number: u8) {
        *self.met.entry(number).or_default() += 1;
    }

    pub fn add(&mut self, other: Tally) {
        self.tables += other.tables;
        self.accepted += other.accepted;
        self.ended += other.ended;
        self.steps += other.steps;
        self.counts += other.counts;
        self.states += other.states;
        self.edits += other.edits;
        self.walks += other.walks;
        self.lists += other.lists;
        merge(&mut self.met, other.met);
        merge(&mut self.built, other.built);
        merge(&mut self.listed, other.listed);
        for (name, times) in other.features {
            *self.features.entry(name).or_default() += times;
        }
    }

    pub fn print(&self, features: &[&'static str]) {
        println!(
            "tables {} accepted {} runs ended {} steps {} counts {}",
            self.tables, self.accepted, self.ended, self.steps, self.counts
        );
        println!(
            "states by hand or damaged {} states with a byte changed {} walks {}",
            self.states, self.edits, self.walks
        );
        let times = |number| self.met.get(&number).copied().unwrap_or(0);
        let numbers: Vec<String> = (1..=17).map(|n| format!("{n}: {}", times(n))).collect();
        println!("numbers met {}", numbers.join(", "));
        println!("lists {}", self.lists);
        println!("  built {:?}", self.built);
        println!("  listed {:?}", self.listed);
        let faults: Vec<String> = (1..=8)
            .map(|f| format!("F{f}: {}", times(100 + f)))
            .collect();
        println!("faults met {}", faults.join(", "));
        println!("runs with");
        for name in features {
            println!("  {:6} {name}", self.features.get(name).unwrap_or(&0));
        }
    }

    /// The numbers, faults and features that were not met.
    pub fn missing(&self, features: &[&'static str]) -> Vec<String> {
        let numbers = (1..=17).chain(101..=108);
        let numbers = numbers.filter(|number| !self.met.contains_key(number));
        let built = list_numbers().filter(|n| *n != NEVER_BUILT && !self.built.contains_key(n));
        let listed = list_numbers().filter(|n| !self.listed.contains_key(n));
        let features = features
            .iter()
            .filter(|name| !self.features.contains_key(*name));
        numbers
            .map(|number| number.to_string())
            .chain(built.map(|number| format!("build {number}")))
            .chain(listed.map(|number| format!("commands {number}")))
            .chain(features.map(|name| name.to_string()))
            .collect()
    }
}
