//! Types in the tables, read where they stand: however deep one is, nothing here recurses.

use infer_image::parts::{type_kinds, NONE};
use infer_image::{Shape, ShapeNames, Slot};
use std::fmt;

/// A type in the tables: its words. Equal words are equal types.
#[derive(Clone, Copy, PartialEq, Eq, Hash)]
pub struct Inferred<'t> {
    words: &'t [u32],
}

/// What a type is.
#[derive(Clone, Debug, PartialEq)]
pub enum TypeKind<'t> {
    /// The variable of a slot.
    Var(Slot),
    Primitive,
    Poly,
    ObjectMethod,
    Object {
        shape: Option<Shape>,
    },
    Function {
        shape: Option<Shape>,
        constructor: bool,
        returns: Inferred<'t>,
    },
    Phi(Operands<'t>),
}

/// The operands of a phi, in their order.
#[derive(Clone, Debug, PartialEq)]
pub struct Operands<'t> {
    count: usize,
    words: &'t [u32],
}

impl<'t> Inferred<'t> {
    pub(crate) fn new(words: &'t [u32]) -> Inferred<'t> {
        Inferred { words }
    }

    /// The words, as the library wrote them.
    pub fn words(self) -> &'t [u32] {
        self.words
    }

    /// What it is, with the types right below it.
    pub fn kind(self) -> TypeKind<'t> {
        let (node, below) = Node::read(self.words);
        match node {
            Node::Var(slot) => TypeKind::Var(slot),
            Node::Primitive => TypeKind::Primitive,
            Node::Poly => TypeKind::Poly,
            Node::ObjectMethod => TypeKind::ObjectMethod,
            Node::Object(shape) => TypeKind::Object { shape },
            Node::Function { shape, constructor } => {
                TypeKind::Function { shape, constructor, returns: Inferred::new(below) }
            }
            Node::Phi(count) => TypeKind::Phi(Operands { count, words: below }),
        }
    }

    /// The type for people to read, as `function SetState -> phi(primitive, object Array)`; a shape without a name is
    /// its number.
    pub fn display_with(self, names: &'t ShapeNames) -> impl fmt::Display + 't {
        Named { of: self, names }
    }

    /// The variables in it, from left to right; one that occurs again comes again.
    pub fn variables(self) -> impl Iterator<Item = Slot> + 't {
        self.nodes().filter_map(|node| match node {
            Node::Var(slot) => Some(slot),
            _ => None,
        })
    }

    pub(crate) fn nodes(self) -> impl Iterator<Item = Node> + 't {
        let mut words = self.words;
        std::iter::from_fn(move || {
            let (node, rest) = (!words.is_empty()).then(|| Node::read(words))?;
            words = rest;
            Some(node)
        })
    }
}

impl<'t> Iterator for Operands<'t> {
    type Item = Inferred<'t>;

    fn next(&mut self) -> Option<Inferred<'t>> {
        self.count = self.count.checked_sub(1)?;
        let (operand, rest) = self.words.split_at(type_words(self.words));
        self.words = rest;
        Some(Inferred::new(operand))
    }

    fn size_hint(&self) -> (usize, Option<usize>) {
        (self.count, Some(self.count))
    }
}

impl ExactSizeIterator for Operands<'_> {}

/// A type without those below it, which follow it in the words: a function's return type, a phi's operands.
#[derive(Clone, Copy)]
pub(crate) enum Node {
    Var(Slot),
    Primitive,
    Poly,
    ObjectMethod,
    Object(Option<Shape>),
    Function { shape: Option<Shape>, constructor: bool },
    Phi(usize),
}

impl Node {
    /// The first node, and the words after it.
    fn read(words: &[u32]) -> (Node, &[u32]) {
        let shape = || Some(words[1]).filter(|&shape| shape != NONE).map(Shape::from_number);
        let node = match words[0] {
            type_kinds::VAR => Node::Var(Slot::from_number(words[1])),
            type_kinds::PRIMITIVE => return (Node::Primitive, &words[1..]),
            type_kinds::POLY => return (Node::Poly, &words[1..]),
            type_kinds::OBJECT_METHOD => return (Node::ObjectMethod, &words[1..]),
            type_kinds::OBJECT => Node::Object(shape()),
            type_kinds::FUNCTION => Node::Function { shape: shape(), constructor: false },
            type_kinds::CONSTRUCTOR => Node::Function { shape: shape(), constructor: true },
            _ => Node::Phi(words[1] as usize),
        };
        (node, &words[2..])
    }

    /// How many types are right below.
    fn types_below(self) -> usize {
        match self {
            Node::Function { .. } => 1,
            Node::Phi(operands) => operands,
            _ => 0,
        }
    }

    fn word(self) -> &'static str {
        match self {
            Node::Var(_) => "var",
            Node::Primitive => "primitive",
            Node::Poly => "poly",
            Node::ObjectMethod => "method",
            Node::Object(_) => "object",
            Node::Function { constructor: false, .. } => "function",
            Node::Function { constructor: true, .. } => "constructor",
            Node::Phi(_) => "phi",
        }
    }
}

/// The words of the type that these begin with.
pub(crate) fn type_words(words: &[u32]) -> usize {
    let (mut rest, mut due) = (words, 1);
    while due > 0 {
        let (node, after) = Node::read(rest);
        due = due - 1 + node.types_below();
        rest = after;
    }
    words.len() - rest.len()
}

impl fmt::Display for Inferred<'_> {
    /// As the program `infer_main` prints it.
    fn fmt(&self, f: &mut fmt::Formatter<'_>) -> fmt::Result {
        for (number, node) in self.nodes().enumerate() {
            f.write_str(if number == 0 { "" } else { " " })?;
            f.write_str(node.word())?;
            match node {
                Node::Primitive | Node::Poly | Node::ObjectMethod => {}
                Node::Var(slot) => write!(f, " {}", slot.number())?,
                Node::Object(None) | Node::Function { shape: None, .. } => f.write_str(" none")?,
                Node::Object(Some(shape)) | Node::Function { shape: Some(shape), .. } => {
                    write!(f, " {}", shape.number())?
                }
                Node::Phi(operands) => write!(f, " {operands}")?,
            }
        }
        Ok(())
    }
}

impl fmt::Debug for Inferred<'_> {
    fn fmt(&self, f: &mut fmt::Formatter<'_>) -> fmt::Result {
        fmt::Display::fmt(self, f)
    }
}

/// A type that is printed with names.
struct Named<'t> {
    of: Inferred<'t>,
    names: &'t ShapeNames,
}

impl Named<'_> {
    fn write_node(&self, f: &mut fmt::Formatter<'_>, node: Node) -> fmt::Result {
        f.write_str(node.word())?;
        match node {
            Node::Primitive | Node::Poly | Node::ObjectMethod => Ok(()),
            Node::Var(slot) => write!(f, " {}", slot.number()),
            Node::Object(shape) => self.write_shape(f, shape),
            Node::Function { shape, .. } => {
                self.write_shape(f, shape)?;
                f.write_str(" -> ")
            }
            Node::Phi(0) => f.write_str("()"),
            Node::Phi(_) => f.write_str("("),
        }
    }

    fn write_shape(&self, f: &mut fmt::Formatter<'_>, shape: Option<Shape>) -> fmt::Result {
        let Some(shape) = shape else { return Ok(()) };
        match self.names.get(shape) {
            Some(name) => write!(f, " {name}"),
            None => write!(f, " {}", shape.number()),
        }
    }
}

impl fmt::Display for Named<'_> {
    fn fmt(&self, f: &mut fmt::Formatter<'_>) -> fmt::Result {
        let mut phis = OpenPhis::default();
        for node in self.of.nodes() {
            self.write_node(f, node)?;
            let (ended, next) = phis.enter(node);
            (0..ended).try_for_each(|_| f.write_str(")"))?;
            f.write_str(if next { ", " } else { "" })?;
        }
        Ok(())
    }
}

/// The phis around the node that is printed: how many operands of each are due.
#[derive(Default)]
pub(crate) struct OpenPhis(Vec<usize>);

impl OpenPhis {
    pub(crate) fn count(&self) -> usize {
        self.0.len()
    }

    /// After a node: how many phis have ended with it, and whether another operand of one follows.
    pub(crate) fn enter(&mut self, node: Node) -> (usize, bool) {
        match node {
            Node::Function { .. } => return (0, false),
            Node::Phi(operands @ 1..) => {
                self.0.push(operands);
                return (0, false);
            }
            _ => {}
        }
        let mut ended = 0;
        while let Some(operands) = self.0.last_mut() {
            *operands -= 1;
            if *operands > 0 {
                return (ended, true);
            }
            self.0.pop();
            ended += 1;
        }
        (ended, false)
    }
}
