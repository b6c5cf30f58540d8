//! Why a slot has its type, in words.

use crate::inferred::{Inferred, Node, OpenPhis, TypeKind};
use crate::listing::Listing;
use crate::Tables;
use infer_image::parts::{rows, type_kinds, Table};
use infer_image::{Image, Shape, Slot};
use std::collections::{HashMap, HashSet};
use std::fmt;

/// Levels of indentation, at most: what is deeper stands below the last.
const MOST_LEVELS: usize = 20;
/// The most parts of a type in the first line.
const MOST_PARTS: usize = 40;
/// The most letters of a name and names of a slot.
const MOST_LETTERS: usize = 60;
const MOST_NAMES: usize = 4;

type Row<'a> = (Slot, Option<Inferred<'a>>);

/// Why a slot has its type, for people to read: the type, then a line for each variable of the listing, below the one
/// that led to it.
///
/// ```text
/// Why onChange is a function of shape Function returning a primitive value:
///   onChange is known to be a function of shape Function returning slot 9
///     slot 9 is the same as count
///       count is known to be a primitive value
/// ```
///
/// A variable is called by the text that the host gave its slot, else by the name of the slot's identifier, else by the
/// slot's number; other names of the same slot are said once. The number stands beside a name that several slots of the
/// listing have. Where the image gives a slot another type than its variable, slot and variable are told apart: the
/// first line has the type of the slot, and the listing `the variable of` it. However long the listing is, the text is
/// printed in time that grows with it, and nothing recurses.
#[derive(Clone, Debug)]
pub struct Explanation<'a> {
    rows: Vec<Row<'a>>,
    /// The row of each slot.
    places: HashMap<Slot, usize>,
    /// What is known in the end.
    known: Option<Inferred<'a>>,
    /// The slots that the image gives another type than their variable.
    given: HashSet<Slot>,
    names: HashMap<Slot, Vec<String>>,
    /// First names that several slots have.
    shared: HashSet<String>,
    image: &'a Image,
}

impl<'a> Explanation<'a> {
    pub(crate) fn new(listing: &'a Listing, tables: &'a Tables, image: &'a Image) -> Explanation<'a> {
        let rows: Vec<Row> = listing.rows().collect();
        let places: HashMap<Slot, usize> = rows.iter().enumerate().map(|(at, row)| (row.0, at)).collect();
        let (names, given) = (slot_names(image), given_slots(image));
        let mut seen = HashSet::new();
        let first_names = places.keys().filter_map(|slot| names.get(slot)).map(|all| &all[0]);
        let shared = first_names.filter(|name| !seen.insert(*name)).cloned().collect();
        let slot = rows[0].0;
        let known = match tables.slot(slot) {
            // the variables that are followed are the first rows
            own if is_variable(own) && !given.contains(&slot) => {
                let mut bindings = rows.iter().map(|row| row.1);
                bindings.find(|binding| !binding.is_some_and(is_variable)).flatten()
            }
            own => Some(own),
        };
        Explanation { rows, places, known, given, names, shared, image }
    }

    /// What a slot is called.
    fn write_slot(&self, f: &mut fmt::Formatter<'_>, slot: Slot) -> fmt::Result {
        match self.names.get(&slot).map(|all| &all[0]) {
            None => write!(f, "slot {}", slot.number()),
            Some(name) if self.shared.contains(name) || !self.places.contains_key(&slot) => {
                write!(f, "{name} (slot {})", slot.number())
            }
            Some(name) => f.write_str(name),
        }
    }

    /// What its variable is called.
    fn write_variable(&self, f: &mut fmt::Formatter<'_>, slot: Slot) -> fmt::Result {
        f.write_str(if self.given.contains(&slot) { "the variable of " } else { "" })?;
        self.write_slot(f, slot)
    }

    /// The names of a slot after its first, between these texts, if it has others.
    fn write_other_names(
        &self,
        f: &mut fmt::Formatter<'_>,
        slot: Slot,
        before: &str,
        after: &str,
    ) -> fmt::Result {
        match self.names.get(&slot).map(Vec::as_slice) {
            None | Some([] | [_]) => Ok(()),
            Some([_, last]) => write!(f, "{before}{last}{after}"),
            Some([_, others @ .., last]) => write!(f, "{before}{} and {last}{after}", others.join(", ")),
        }
    }

    /// A type, in at most so many parts. Variables whose rows stand before this one are said to be above.
    fn write_type(&self, f: &mut fmt::Formatter<'_>, of: Inferred, row: usize, most: usize) -> fmt::Result {
        let mut phis = OpenPhis::default();
        for (part, node) in of.nodes().enumerate() {
            if part == most {
                return f.write_str("...");
            }
            match node {
                Node::Var(slot) => self.write_mention(f, slot, row)?,
                _ => self.write_node(f, node, phis.count())?,
            }
            let (ended, next) = phis.enter(node);
            // the outermost one has a colon and no parentheses
            let in_parentheses = ended - usize::from(ended > 0 && phis.count() == 0);
            (0..in_parentheses).try_for_each(|_| f.write_str(")"))?;
            f.write_str(if next { ", " } else { "" })?;
        }
        Ok(())
    }

    fn write_mention(&self, f: &mut fmt::Formatter<'_>, slot: Slot, row: usize) -> fmt::Result {
        self.write_variable(f, slot)?;
        let is_above = self.places.get(&slot).is_some_and(|&place| place < row);
        f.write_str(if is_above { " (see above)" } else { "" })
    }

    /// A type without those below it, in so many phis.
    fn write_node(&self, f: &mut fmt::Formatter<'_>, node: Node, phis: usize) -> fmt::Result {
        match node {
            Node::Var(slot) => self.write_variable(f, slot),
            Node::Primitive => f.write_str("a primitive value"),
            Node::Poly => f.write_str("anything"),
            Node::ObjectMethod => f.write_str("an object's method"),
            Node::Object(shape) => {
                f.write_str("an object")?;
                self.write_shape(f, shape)
            }
            Node::Function { shape, constructor } => {
                f.write_str(if constructor { "a constructor" } else { "a function" })?;
                self.write_shape(f, shape)?;
                f.write_str(" returning ")
            }
            Node::Phi(0) => f.write_str("one of none"),
            Node::Phi(_) => f.write_str(if phis == 0 { "one of: " } else { "one of (" }),
        }
    }

    fn write_shape(&self, f: &mut fmt::Formatter<'_>, shape: Option<Shape>) -> fmt::Result {
        let Some(shape) = shape else { return Ok(()) };
        match self.image.shape_names.get(shape).and_then(|name| printable(name.as_bytes())) {
            Some(name) => write!(f, " of shape {name}"),
            None => write!(f, " of shape {}", shape.number()),
        }
    }

    fn write_first_line(&self, f: &mut fmt::Formatter<'_>) -> fmt::Result {
        let slot = self.rows[0].0;
        f.write_str("Why ")?;
        self.write_slot(f, slot)?;
        match self.known {
            Some(of) => {
                f.write_str(if is_variable(of) { " is the same as " } else { " is " })?;
                self.write_type(f, of, 0, MOST_PARTS)?;
            }
            None => f.write_str(" is not known")?,
        }
        f.write_str(":\n")?;
        match self.given.contains(&slot) {
            true => f.write_str(
                "  this follows from the type that the image gives it, beside which it has a variable:\n",
            ),
            false => Ok(()),
        }
    }

    /// Whether the first line and one row are all that there is to say.
    fn is_alone(&self) -> bool {
        self.rows.len() == 1 && !self.given.contains(&self.rows[0].0)
    }

    /// Whether all of a binding is said in the first line.
    fn is_in_first_line(&self, binding: Inferred) -> bool {
        self.is_alone() && binding.nodes().nth(MOST_PARTS).is_none()
    }

    fn write_row(&self, f: &mut fmt::Formatter<'_>, row: usize, depth: usize) -> fmt::Result {
        let (slot, binding) = self.rows[row];
        write!(f, "{:width$}", "", width = 2 * depth.min(MOST_LEVELS))?;
        if binding.is_none() && self.is_alone() {
            self.write_other_names(f, slot, "it is also named ", ", and ")?;
            return f.write_str("nothing in the screen says what it is\n");
        }
        self.write_variable(f, slot)?;
        self.write_other_names(f, slot, ", also named ", ",")?;
        match binding {
            None => f.write_str(" is not known: nothing in the screen says what it is")?,
            Some(of) if self.is_in_first_line(of) => {
                f.write_str(" is that by itself: it leads to no other value")?
            }
            Some(of) => {
                f.write_str(if is_variable(of) { " is the same as " } else { " is known to be " })?;
                self.write_type(f, of, row, usize::MAX)?;
            }
        }
        f.write_str("\n")
    }
}

impl fmt::Display for Explanation<'_> {
    fn fmt(&self, f: &mut fmt::Formatter<'_>) -> fmt::Result {
        self.write_first_line(f)?;
        // the variables that remain in each binding on the way to the row
        let mut way = vec![];
        for (row, (_, binding)) in self.rows.iter().enumerate() {
            self.write_row(f, row, way.len() + 1)?;
            way.extend(binding.map(Inferred::variables));
            // back to the binding that the next row was met in
            while let Some(variables) = way.last_mut() {
                match variables.find(|slot| self.places[slot] > row) {
                    Some(_) => break,
                    None => _ = way.pop(),
                }
            }
        }
        Ok(())
    }
}

fn is_variable(of: Inferred) -> bool {
    matches!(of.kind(), TypeKind::Var(_))
}

/// The slots that the image gives another type than their variable; those that the run made have theirs.
fn given_slots(image: &Image) -> HashSet<Slot> {
    let types: Vec<&[u32]> = rows(&image.words, Table::Types).collect();
    let slots = (0..).map(Slot::from_number).zip(rows(&image.words, Table::Slots));
    let is_given = |slot: Slot, row: &[u32]| types[row[0] as usize][..2] != [type_kinds::VAR, slot.number()];
    slots.filter(|&(slot, row)| is_given(slot, row)).map(|(slot, _)| slot).collect()
}

/// What each slot that has a name is called: the host's text first, then the names of its identifiers.
fn slot_names(image: &Image) -> HashMap<Slot, Vec<String>> {
    let mut names: HashMap<Slot, Vec<String>> = HashMap::new();
    let texts = image.slot_names.iter().map(|(slot, text)| (slot, text.as_bytes()));
    let identifiers = image.identifiers().filter_map(|(slot, name)| Some((slot, name?)));
    for (slot, bytes) in texts.chain(identifiers) {
        let Some(text) = printable(bytes) else { continue };
        let all = names.entry(slot).or_default();
        if all.len() < MOST_NAMES && !all.contains(&text) {
            all.push(text);
        }
    }
    names
}

/// A text on one line, and no more than its first letters if it is long; none if it is empty.
fn printable(bytes: &[u8]) -> Option<String> {
    // a letter has up to four bytes
    let start = String::from_utf8_lossy(&bytes[..bytes.len().min(4 * (MOST_LETTERS + 1))]);
    let ends_line = |letter: char| letter.is_control() || ['\u{2028}', '\u{2029}'].contains(&letter);
    let letter = |letter: char| if ends_line(letter) { char::REPLACEMENT_CHARACTER } else { letter };
    let mut text: String = start.chars().take(MOST_LETTERS).map(letter).collect();
    if start.chars().nth(MOST_LETTERS).is_some() {
        text.push_str("...");
    }
    (!text.is_empty()).then_some(text)
}
