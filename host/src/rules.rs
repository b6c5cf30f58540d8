//! The rules that gave properties their types, over many runs.

use infer_types::Lookups;

const NAMES: [&str; 4] = ["exact", "star", "hook", "nothing"];
/// As many as there are sets of rules.
const SETS: usize = 1 << NAMES.len();

/// Runs by the set of rules that their lookups came to. A set is a number, with a bit for each rule.
#[derive(Default)]
pub struct Rules {
    runs: [u64; SETS],
}

impl Rules {
    pub fn add(&mut self, lookups: Lookups) {
        let Lookups { exact_name, star_entry, hook_rule, nothing } = lookups;
        let counts = [exact_name, star_entry, hook_rule, nothing].into_iter().enumerate();
        let set: usize = counts.filter(|one| one.1 > 0).map(|one| 1 << one.0).sum();
        self.runs[set] += 1;
    }

    /// Each rule, each pair of rules and all together, with the number of runs that came to them, perhaps among others.
    pub fn met(&self) -> Vec<(String, u64)> {
        let wanted = (1..SETS).filter(|set: &usize| [1, 2, NAMES.len() as u32].contains(&set.count_ones()));
        wanted.map(|set| (name(set), self.runs_with(set))).collect()
    }

    fn runs_with(&self, set: usize) -> u64 {
        (0..SETS).filter(|other| other & set == set).map(|other| self.runs[other]).sum()
    }
}

fn name(set: usize) -> String {
    let names = NAMES.iter().enumerate().filter(|one| set >> one.0 & 1 == 1);
    names.map(|one| *one.1).collect::<Vec<_>>().join("+")
}
