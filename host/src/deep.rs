//! Images whose run recurses as deep as 65,536 words and 65,536 steps allow, or nearly so.

use crate::image::*;

const BUDGET: u32 = 65_536;
/// Functions in a type of 4,096 words written out.
const TOWER: u32 = 2_047;
/// Phis of two operands, one of them a leaf, in a type of fewer than 4,096 words written out.
const NEST: u32 = 1_364;

/// The name of the deepest one, which took over 8 MiB of stack as an older toolchain compiled the library.
pub const DEEPEST: &str = "copies of phis under get, in functions in each other";

pub fn is_deepest(case: &Case) -> bool {
    case.name == DEEPEST
}

/// Names and inputs, in the order of their stored answers.
pub fn deep() -> Vec<Case> {
    let mut cases = vec![];
    let mut add = |name: &str, image: Image| {
        let mut input = image.write();
        assert!(input.image.len() <= 65_536, "{name} has {} words", input.image.len());
        input.budget = BUDGET;
        input.lend_enough();
        cases.push(Case { name: name.into(), input, expected: 0 });
    };
    add("variables in a chain, unified with a type", chain_and_type(6_550, 2_610));
    add("variables in a chain, unified with a type, to the end", chain_and_type(4_100, 4_080));
    add("variables in a chain under occurs_check", chain_in_function(8_550, 1_410));
    add("variables in a chain under occurs_check, to the end", chain_in_function(5_950, 2_970));
    add("variables in a chain under try_resolve_type", chain_to_itself(4_850, 3_630));
    add("variables in a chain under apply_function", chain_visited(8_550, 1_410));
    add("variables in a chain under apply_function, to the end", chain_visited(5_950, 2_970));
    add("function types in each other", towers(10));
    add("function types in each other, unified", two_towers(5));
    add("phis in each other under try_resolve_type", nests(4));
    add("functions in each other", functions(4_360));
    add(DEEPEST, copied_nests(1_200, 26, 1_500, 3_712));
    cases
}

/// An image under construction: the variables are visited for one step each, since their slots' type is Primitive.
pub(crate) struct Deep {
    pub image: Image,
    pub primitive: u32,
    pub block: Block,
}

impl Deep {
    /// Variable 0 is what the function returns.
    pub fn new() -> Deep {
        let mut image = Image::new();
        let primitive = image.primitive();
        let mut deep = Deep { image, primitive, block: Block::default() };
        deep.variable();
        deep
    }

    /// A variable: an identifier and its slot have the same number.
    pub fn variable(&mut self) -> u32 {
        let slot = self.image.slot(self.primitive);
        self.image.identifier(slot, NONE)
    }

    /// So many variables, each bound to the next, by so many phis and so many loads; gives the first and the last.
    pub fn chain(&mut self, phis: u32, loads: u32) -> (u32, u32) {
        let first = self.variable();
        let mut last = first;
        for number in 0..phis + loads {
            let next = self.variable();
            if number < phis {
                self.block.phis.push((last, vec![next]));
            } else {
                self.push(Kind::LoadLocal, last, 0, vec![Item::place(next)]);
            }
            last = next;
        }
        (first, last)
    }

    pub fn push(&mut self, kind: Kind, lvalue: u32, aux: u32, items: Vec<Item>) {
        self.block.instructions.push(Instruction::new(kind, lvalue, aux, items));
    }

    /// The variable's entry type is its own Var, so that a visit resolves it.
    fn show(&mut self, variable: u32) {
        let own = self.image.var(variable);
        *self.image.cell(Table::Slots, variable, 0) = own;
    }

    /// A global of this type into the variable.
    pub fn load(&mut self, variable: u32, of_type: u32) {
        self.push(Kind::LoadGlobal, variable, of_type, vec![]);
    }

    /// Variables bound to towers of functions, each with the next variable at its end; gives the first.
    fn towers(&mut self, count: u32) -> u32 {
        let first = self.variable();
        let mut variable = first;
        for _ in 0..count {
            let next = self.variable();
            let mut tower = self.image.var(next);
            for _ in 0..TOWER {
                tower = self.image.function(NONE, tower);
            }
            self.load(variable, tower);
            variable = next;
        }
        first
    }

    /// What stands in the block is in the innermost of so many functions.
    fn nest(&mut self, functions: u32) {
        let lvalue = self.variable();
        for number in 1..functions {
            self.image.body(Body::of(0, vec![Instruction::naming(lvalue, number)]));
        }
    }

    pub fn finish(mut self) -> Image {
        self.image.body(Body::new(0, vec![self.block]));
        self.image
    }
}

fn chain_and_type(phis: u32, loads: u32) -> Image {
    let mut deep = Deep::new();
    let (first, _) = deep.chain(phis, loads);
    deep.push(Kind::Primitive, first, 0, vec![]);
    deep.finish()
}

/// A variable is bound to a function that returns the chain's first.
fn chain_in_function(phis: u32, loads: u32) -> Image {
    let mut deep = Deep::new();
    let (first, _) = deep.chain(phis, loads);
    let returned = deep.image.var(first);
    let function = deep.image.function(NONE, returned);
    let bound = deep.variable();
    deep.load(bound, function);
    deep.finish()
}

/// The chain's last is to be bound to a phi of its first and Primitive: it leads to itself.
fn chain_to_itself(phis: u32, loads: u32) -> Image {
    let mut deep = Deep::new();
    let (first, last) = deep.chain(phis, loads);
    let operand = deep.image.var(first);
    let phi = deep.image.phi(&[operand, deep.primitive]);
    deep.load(last, phi);
    deep.finish()
}

/// The chain's first is resolved when it is visited.
fn chain_visited(phis: u32, loads: u32) -> Image {
    let mut deep = Deep::new();
    let (first, _) = deep.chain(phis, loads);
    deep.show(first);
    deep.finish()
}

/// What the function returns resolves to all towers, one in the other.
fn towers(count: u32) -> Image {
    let mut deep = Deep::new();
    let first = deep.towers(count);
    let all = deep.image.var(first);
    *deep.image.cell(Table::Slots, 0, 0) = all;
    deep.finish()
}

fn two_towers(count: u32) -> Image {
    let mut deep = Deep::new();
    let (one, other) = (deep.towers(count), deep.towers(count));
    deep.push(Kind::LoadLocal, one, 0, vec![Item::place(other)]);
    deep.finish()
}

/// Variables bound to phis in each other, each with the next variable at its end, the last with the first.
fn nests(count: u32) -> Image {
    let mut deep = Deep::new();
    let variables: Vec<u32> = (0..count).map(|_| deep.variable()).collect();
    for number in (1..=count as usize).map(|number| number % variables.len()) {
        let next = variables[(number + 1) % variables.len()];
        let mut nest = deep.image.var(next);
        for _ in 0..NEST {
            nest = deep.image.phi(&[nest, deep.primitive]);
        }
        deep.load(variables[number], nest);
    }
    deep.finish()
}

fn functions(count: u32) -> Image {
    let mut deep = Deep::new();
    deep.nest(count);
    deep.finish()
}

/// The most stack that is known: so many levels of phis stand in the image once, with a variable at their end whose phi
/// has all of the variables that are bound to them. Each of these comes to itself there, so that `try_resolve_type`
/// makes the levels anew without it, with the next variable at their end. Then function types lead to the first.
fn copied_nests(levels: u32, copies: u32, towers: u32, functions: u32) -> Image {
    let mut deep = Deep::new();
    deep.nest(functions);
    let object = deep.image.object(NONE);
    let shared = deep.variable();
    let bound: Vec<u32> = (0..copies).map(|_| deep.variable()).collect();
    deep.block.phis.push((shared, bound.clone()));
    let mut nest = deep.image.var(shared);
    for _ in 0..levels {
        nest = deep.image.phi(&[nest]);
    }
    for &variable in &bound {
        let own = deep.image.var(variable);
        let phi = deep.image.phi(&[deep.primitive, object, own, nest]);
        deep.load(variable, phi);
    }
    let mut tower = deep.image.var(bound[0]);
    for _ in 0..towers {
        tower = deep.image.function(NONE, tower);
    }
    let phi = deep.image.phi(&[tower, deep.primitive]);
    let last = deep.variable();
    deep.load(last, phi);
    deep.finish()
}
