//! Which rule gave properties their types.

use std::fmt;

/// The property lookups of a run, by what gave the property its type.
///
/// Each load of a property, each store to one that isn't computed and each place or named key of a pattern is a lookup,
/// for which the rules are tried in the order of the fields. With `treat_ref_like_identifiers_as_refs`, `ref.current`
/// and `fooRef.current` get their types without a lookup and are counted nowhere.
///
/// It prints as a sentence:
///
/// ```
/// # use infer_types::Lookups;
/// let lookups = Lookups { exact_name: 2, star_entry: 1, hook_rule: 1, nothing: 1 };
/// assert_eq!(
///     lookups.to_string(),
///     "Of 5 property lookups 2 found a type by the exact name, 1 by the \"*\" entry, 1 by the hook rule and 1 found none."
/// );
/// ```
#[derive(Clone, Copy, Debug, Default, PartialEq, Eq)]
pub struct Lookups {
    /// The object's shape has an entry of that very name.
    pub exact_name: u32,
    /// It has none, but it has the entry "*".
    pub star_entry: u32,
    /// It has neither, or the object has no shape; but the name is a hook's, as `useTimer`, and there is a hook type.
    pub hook_rule: u32,
    /// No rule gave a type, and the property got none by its lookup.
    pub nothing: u32,
}

/// What lookups did, said first and said after another.
const FOUND: [[&str; 2]; 4] = [
    ["found a type by the exact name", "by the exact name"],
    ["found a type by the \"*\" entry", "by the \"*\" entry"],
    ["found a type by the hook rule", "by the hook rule"],
    ["found no type", "found none"],
];

impl Lookups {
    /// All lookups.
    pub fn total(&self) -> u64 {
        self.counts().into_iter().map(u64::from).sum()
    }

    fn counts(&self) -> [u32; 4] {
        [self.exact_name, self.star_entry, self.hook_rule, self.nothing]
    }
}

impl fmt::Display for Lookups {
    /// A sentence for people, with the rules that lookups came to.
    fn fmt(&self, f: &mut fmt::Formatter<'_>) -> fmt::Result {
        let found: Vec<_> = self.counts().into_iter().zip(FOUND).filter(|one| one.0 > 0).collect();
        match found[..] {
            [] => f.write_str("No property was looked up."),
            [(1, [first, _])] => write!(f, "The one property lookup {first}."),
            [(count, [first, _])] => write!(f, "All {count} property lookups {first}."),
            [(count, [first, _]), ref between @ .., (last_count, [_, last])] => {
                write!(f, "Of {} property lookups {count} {first}", self.total())?;
                between.iter().try_for_each(|(count, [_, after])| write!(f, ", {count} {after}"))?;
                write!(f, " and {last_count} {last}.")
            }
        }
    }
}
