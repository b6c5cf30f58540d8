//! The Rust's input for an image: a function and its environment.
//!
//! An image that passed the check is read without another look. What the pass has more forms of than the image has
//! numbers (operators, kinds of variables, the two keys that are names) comes in all those forms, in turn.

use crate::react_compiler_hir::environment::Environment;
use crate::react_compiler_hir::environment_config::EnvironmentConfig;
use crate::react_compiler_hir::object_shape::{NUMBERED, ObjectShape};
use crate::react_compiler_hir::*;
use crate::stand_ins::hir::place;
use crate::stand_ins::oxc_allocator::{Allocator, Vec as ArenaVec};
use crate::stand_ins::oxc_index::IndexVec;
use crate::stand_ins::oxc_str::Ident;
use crate::stand_ins::rustc_hash::FxHashMap;
use crate::values::Item;
use infer_image::parts::{HOOK, NONE, OPTIONS, Table, Tag};

/// A screen: its outermost function and all else.
pub struct Screen<'a> {
    pub function: HirFunction<'a>,
    pub environment: Environment<'a>,
    /// The number of each shape, by its name.
    pub shapes: FxHashMap<&'a str, u32>,
}

/// What becomes of names at which the Rust panics: over 3 bytes, "Ref" at the end, a first byte of 128 or more.
#[derive(Clone, Copy, PartialEq)]
pub enum Accents {
    Kept,
    /// A byte that is in no other name is put before them; they stay what they are, but for the panic.
    Guarded,
}

const GUARD: char = '\u{1}';

/// Whether the Rust panics when it asks whether `name.current` is a ref.
pub fn is_accented(name: &[u8]) -> bool {
    name.len() > 3 && name.ends_with(b"Ref") && name[0] >= 128
}

/// A name that isn't UTF-8, which a `&str` can't be.
#[derive(Debug)]
pub struct NotText;

/// The words of an image by table, and its names.
pub struct Image<'i, 'a> {
    words: &'i [u32],
    names: Vec<Ident<'a>>,
    shapes: Vec<Ident<'a>>,
    pub allocator: &'a Allocator,
}

pub fn read<'a>(
    words: &[u32],
    bytes: &[u8],
    accents: Accents,
    allocator: &'a Allocator,
) -> Result<Screen<'a>, NotText> {
    let image = Image::new(words, bytes, accents, allocator)?;
    let mut functions = (0..image.count(Table::Functions)).map(|number| image.function(number));
    let function = functions.next().expect("an outermost function");
    // number 0 is the outermost, which nothing names
    let outermost = crate::stand_ins::hir::placeholder_function(allocator);
    let functions = IndexVec::from_vec(std::iter::once(outermost).chain(functions).collect());

    let options = words[OPTIONS];
    let environment = Environment {
        allocator,
        identifiers: IndexVec::from_vec(
            image.rows(Table::Identifiers).enumerate().map(|(k, row)| image.identifier(k, row)).collect(),
        ),
        types: IndexVec::from_vec(image.rows(Table::Slots).map(|row| image.type_tree(row[0])).collect()),
        functions,
        shapes: image.registered_shapes().collect(),
        config: EnvironmentConfig {
            enable_treat_ref_like_identifiers_as_refs: options & 1 != 0,
            enable_treat_set_identifiers_as_state_setters: options & 2 != 0,
        },
        globals: image.globals(),
        custom_hook_type: (words[HOOK] != NONE).then(|| image.type_tree(words[HOOK])),
    };
    let shapes = image.shapes.iter().zip(0..).map(|(name, number)| (name.as_str(), number)).collect();
    Ok(Screen { function, environment, shapes })
}

impl<'i, 'a> Image<'i, 'a> {
    fn new(
        words: &'i [u32],
        bytes: &[u8],
        accents: Accents,
        allocator: &'a Allocator,
    ) -> Result<Self, NotText> {
        let mut image = Image { words, names: vec![], shapes: vec![], allocator };
        for row in image.rows(Table::Names) {
            let name = &bytes[row[0] as usize..][..row[1] as usize];
            let text = std::str::from_utf8(name).map_err(|_| NotText)?;
            let text = match accents == Accents::Guarded && is_accented(name) {
                true => allocator.alloc_str(&format!("{GUARD}{text}")),
                false => allocator.alloc_str(text),
            };
            image.names.push(Ident::new(text));
        }
        for number in 0..image.count(Table::Shapes) {
            let named = || Ident::new(allocator.alloc_str(&format!("Shape{number}")));
            image.shapes.push(NUMBERED.get(number).copied().unwrap_or_else(named));
        }
        Ok(image)
    }

    fn count(&self, table: Table) -> usize {
        self.words[table.count_at()] as usize
    }

    fn row(&self, table: Table, number: u32) -> &'i [u32] {
        let start = self.words[table.offset_at()] as usize + number as usize * table.width();
        &self.words[start..start + table.width()]
    }

    fn rows(&self, table: Table) -> impl Iterator<Item = &'i [u32]> + use<'i, 'a> {
        let start = self.words[table.offset_at()] as usize;
        self.words[start..start + self.count(table) * table.width()].chunks(table.width())
    }

    pub fn name(&self, number: u32) -> Ident<'a> {
        self.names[number as usize]
    }

    fn identifier(&self, number: usize, row: &[u32]) -> Identifier<'a> {
        let name = match row[1] {
            // a name that isn't `Named` is none to the pass
            NONE if number % 2 == 1 => Some(IdentifierName::Promoted(Ident::new("#t"))),
            NONE => None,
            name => Some(IdentifierName::Named(self.name(name))),
        };
        let unset = EvaluationOrder::UNSET;
        Identifier {
            id: IdentifierId::from_usize(number),
            declaration_id: DeclarationId::from_usize(number),
            name,
            mutable_range: MutableRange { id: MutableRangeId::from_usize(number), start: unset, end: unset },
            scope: None,
            type_: TypeId::from_usize(row[0] as usize),
            span: None,
        }
    }

    fn type_tree(&self, number: u32) -> Type<'a> {
        let [kind, a, b] = self.row(Table::Types, number).try_into().expect("three words");
        let shape_id = || (a != NONE).then(|| self.shapes[a as usize]);
        match kind {
            0 => Type::Var { id: TypeId::from_usize(a as usize) },
            1 => Type::Primitive,
            2 => Type::Poly,
            3 => Type::ObjectMethod,
            4 => Type::Object { shape_id: shape_id() },
            5 | 6 => Type::Function {
                shape_id: shape_id(),
                return_type: Box::new(self.type_tree(b)),
                is_constructor: kind == 6,
            },
            _ => Type::Phi {
                operands: (a..a + b).map(|at| self.type_tree(self.row(Table::Lists, at)[0])).collect(),
            },
        }
    }

    fn registered_shapes(&self) -> impl Iterator<Item = (&'a str, ObjectShape<'a>)> {
        let present = self.rows(Table::Shapes).zip(&self.shapes).filter(|(row, _)| row[0] == 1);
        present.map(|(row, name)| {
            let properties = (row[1]..row[1] + row[2]).map(|number| {
                let property = self.row(Table::Properties, number);
                (self.name(property[0]).as_str(), self.type_tree(property[1]))
            });
            (name.as_str(), ObjectShape { properties: properties.collect() })
        })
    }

    /// The name of the global that has a type, or of one that has none.
    pub fn global_name(&self, of_type: u32) -> Ident<'a> {
        match of_type {
            NONE => Ident::new("undeclared"),
            number => Ident::new(self.allocator.alloc_str(&format!("global{number}"))),
        }
    }

    fn globals(&self) -> FxHashMap<Ident<'a>, Type<'a>> {
        let mut used = vec![];
        for number in 0..self.count(Table::Functions) {
            used.extend(self.body(number).globals());
        }
        used.sort();
        used.dedup();
        used.into_iter().map(|number| (self.global_name(number), self.type_tree(number))).collect()
    }

    fn body(&self, number: usize) -> Body<'i> {
        let [offset, words] = self.row(Table::Functions, number as u32).try_into().expect("two words");
        Body { words: &self.words[offset as usize..][..words as usize], at: 0 }
    }

    fn function(&self, number: usize) -> HirFunction<'a> {
        let mut body = self.body(number);
        let fn_type = match body.word() {
            0 => ReactFunctionType::Component,
            1 => ReactFunctionType::Hook,
            _ => ReactFunctionType::Other,
        };
        let returns = body.place();
        let params = body.list(|body| match body.word() {
            0 => ParamPattern::Place(body.place()),
            _ => ParamPattern::Spread(SpreadPattern { place: body.place() }),
        });
        let context = body.list(Body::place);
        let mut instructions = vec![];
        let blocks = (0..body.word()).map(|block| {
            let id = BlockId::from_usize(block as usize);
            (id, self.block(id, &mut body, &mut instructions))
        });
        HirFunction {
            span: None,
            id: None,
            name_hint: None,
            fn_type,
            params,
            returns,
            context,
            body: HIR { entry: BlockId::ENTRY, blocks: blocks.collect() },
            instructions: ArenaVec::from_vec(instructions),
            generator: false,
            is_async: false,
            directives: ArenaVec::from_vec(vec![]),
            aliasing_effects: None,
        }
    }

    /// A block; its instructions are added to the function's.
    fn block(&self, id: BlockId, body: &mut Body, instructions: &mut Vec<Instruction<'a>>) -> BasicBlock<'a> {
        let phis = body.list(|body| {
            let place = body.place();
            let operands = (0..body.word()).map(|from| (BlockId::from_usize(from as usize), body.place()));
            Phi { place, operands: operands.collect() }
        });
        let first = instructions.len();
        for _ in 0..body.word() {
            let (kind, lvalue, aux, items) = body.instruction();
            instructions.push(Instruction {
                id: EvaluationOrder::UNSET,
                lvalue: place(lvalue),
                value: self.value(kind, aux, &items, instructions.len()),
                span: None,
                effects: None,
            });
        }
        let (returned, identifier) = (body.word() == 1, body.identifier());
        let terminal = match (returned, id.index() % 3) {
            (true, variant) => Terminal::Return {
                value: place(identifier),
                return_variant: [ReturnVariant::Explicit, ReturnVariant::Implicit, ReturnVariant::Void]
                    [variant],
                id: EvaluationOrder::UNSET,
                span: None,
                effects: None,
            },
            (false, 0) => Terminal::Unreachable { id: EvaluationOrder::UNSET, span: None },
            // the pass looks at no other terminal, nor at what they return
            (false, _) => {
                Terminal::Throw { value: place(identifier), id: EvaluationOrder::UNSET, span: None }
            }
        };
        let ids = (first..instructions.len()).map(InstructionId::from_usize).collect();
        BasicBlock {
            kind: BlockKind::Block,
            id,
            instructions: ArenaVec::from_vec(ids),
            terminal,
            preds: Default::default(),
            phis,
        }
    }
}

/// The words of a body, read from the first to the last.
struct Body<'i> {
    words: &'i [u32],
    at: usize,
}

impl Body<'_> {
    fn word(&mut self) -> u32 {
        self.at += 1;
        self.words[self.at - 1]
    }

    fn identifier(&mut self) -> IdentifierId {
        IdentifierId::from_usize(self.word() as usize)
    }

    fn place(&mut self) -> Place {
        place(self.identifier())
    }

    /// A count and as many of what is read.
    fn list<'a, T>(&mut self, mut read: impl FnMut(&mut Self) -> T) -> ArenaVec<'a, T> {
        ArenaVec::from_vec((0..self.word()).map(|_| read(self)).collect())
    }

    fn instruction(&mut self) -> (usize, IdentifierId, u32, Vec<Item>) {
        let (kind, lvalue, aux) = (self.word() as usize, self.identifier(), self.word());
        let items = (0..self.word()).map(|_| {
            let tag = Tag::ALL[self.word() as usize];
            Item { tag, place: self.place(), key: self.word() }
        });
        (kind, lvalue, aux, items.collect())
    }

    /// The types of all globals that the body loads.
    fn globals(mut self) -> Vec<u32> {
        let mut types = vec![];
        self.at = 2;
        let params = self.word() as usize;
        self.at += 2 * params;
        let context = self.word() as usize;
        self.at += context;
        for _ in 0..self.word() {
            for _ in 0..self.word() {
                self.word();
                let operands = self.word() as usize;
                self.at += operands;
            }
            for _ in 0..self.word() {
                let (kind, _, aux, _) = self.instruction();
                if kind == infer_image::parts::Kind::LoadGlobal as usize && aux != NONE {
                    types.push(aux);
                }
            }
            self.at += 2;
        }
        types
    }
}
