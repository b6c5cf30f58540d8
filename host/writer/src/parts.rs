//! Images: the parts of one, and the words that they are written as (document 01, "The image").

pub const NONE: u32 = u32::MAX;

// Header words that are not a table's count or offset.
pub const VERSION: usize = 0;
pub const OPTIONS: usize = 1;
pub const HOOK: usize = 2;
pub const LENGTH: usize = 19;
pub const HEADER_WORDS: usize = 20;

/// Bits of the options word.
pub mod option_bits {
    pub const REFS: u32 = 1;
    pub const SETTERS: u32 = 2;
}

/// The kinds of types, in the image and in the tables.
pub mod type_kinds {
    pub const VAR: u32 = 0;
    pub const PRIMITIVE: u32 = 1;
    pub const POLY: u32 = 2;
    pub const OBJECT_METHOD: u32 = 3;
    pub const OBJECT: u32 = 4;
    pub const FUNCTION: u32 = 5;
    pub const CONSTRUCTOR: u32 = 6;
    pub const PHI: u32 = 7;
}

/// An enum whose variants are numbered from 0 in the order of their declaration.
macro_rules! numbered {
    ($(#[$doc:meta])* $name:ident { $($variant:ident),* $(,)? }) => {
        $(#[$doc])*
        #[derive(Clone, Copy, Debug, PartialEq)]
        pub enum $name { $($variant),* }

        impl $name {
            pub const ALL: &'static [$name] = &[$($name::$variant),*];
        }
    };
}

numbered! {
    /// The tables, in the header's order.
    Table { Names, Identifiers, Slots, Types, Lists, Shapes, Properties, Functions }
}

impl Table {
    /// The words of a row.
    pub fn width(self) -> usize {
        [2, 2, 1, 3, 1, 3, 2, 2][self as usize]
    }

    /// The header word of the count.
    pub fn count_at(self) -> usize {
        3 + 2 * self as usize
    }

    /// The header word of the offset.
    pub fn offset_at(self) -> usize {
        self.count_at() + 1
    }
}

/// The rows of a table in the words of an image that passed the check.
pub fn rows(words: &[u32], table: Table) -> impl Iterator<Item = &[u32]> {
    let [count, start] = [table.count_at(), table.offset_at()].map(|at| words[at] as usize);
    words[start..].chunks_exact(table.width()).take(count)
}

numbered! {
    /// `InstructionValue`, in the order in which it is declared.
    Kind {
        LoadLocal, LoadContext, DeclareLocal, DeclareContext, StoreLocal, StoreContext, Destructure,
        Primitive, JSXText, BinaryExpression, NewExpression, CallExpression, MethodCall,
        UnaryExpression, TypeCastExpression, JsxExpression, ObjectExpression, ObjectMethod,
        ArrayExpression, JsxFragment, RegExpLiteral, MetaProperty, PropertyStore, PropertyLoad,
        PropertyDelete, ComputedStore, ComputedLoad, ComputedDelete, LoadGlobal, StoreGlobal,
        FunctionExpression, TaggedTemplateExpression, TemplateLiteral, Await, GetIterator,
        IteratorNext, NextPropertyOf, PrefixUpdate, PostfixUpdate, Debugger, StartMemoize,
        FinishMemoize,
    }
}

numbered! {
    /// The tags of items.
    Tag { Place, Spread, Hole, NamedKey, ComputedKey, OtherKey, Attribute }
}

numbered! {
    /// The kinds of functions.
    FnType { Component, Hook, Other }
}

/// What a word of a body is, which says what it may be.
#[derive(Clone, Copy, Debug, PartialEq)]
pub enum Role {
    FnType,
    Identifier,
    Count,
    Flag,
    Kind,
    NameOrNone,
    TypeOrNone,
    Function,
    Tag,
    Name,
    Zero,
}

#[derive(Clone, Debug)]
pub struct Item {
    pub tag: Tag,
    pub identifier: u32,
    pub key: u32,
}

impl Item {
    pub fn place(identifier: u32) -> Item {
        Item { tag: Tag::Place, identifier, key: 0 }
    }

    fn roles(&self) -> [Role; 3] {
        let identifier = if self.tag == Tag::Hole { Role::Zero } else { Role::Identifier };
        [Role::Tag, identifier, self.tag.key_role()]
    }
}

impl Tag {
    pub fn key_role(self) -> Role {
        match self {
            Tag::NamedKey | Tag::Attribute => Role::Name,
            Tag::ComputedKey => Role::Identifier,
            _ => Role::Zero,
        }
    }
}

#[derive(Clone, Debug)]
pub struct Instruction {
    pub kind: Kind,
    pub lvalue: u32,
    pub aux: u32,
    pub items: Vec<Item>,
}

impl Instruction {
    pub fn new(kind: Kind, lvalue: u32, aux: u32, items: Vec<Item>) -> Instruction {
        Instruction { kind, lvalue, aux, items }
    }

    /// A FunctionExpression that names a function.
    pub fn naming(lvalue: u32, function: u32) -> Instruction {
        Instruction::new(Kind::FunctionExpression, lvalue, function, vec![])
    }

    pub fn aux_role(kind: Kind) -> Role {
        match kind {
            Kind::BinaryExpression | Kind::StoreContext | Kind::Destructure => Role::Flag,
            Kind::PropertyLoad | Kind::PropertyStore => Role::NameOrNone,
            Kind::LoadGlobal => Role::TypeOrNone,
            Kind::FunctionExpression | Kind::ObjectMethod => Role::Function,
            _ => Role::Zero,
        }
    }

    /// Places that come first, and the tags of the items after them; of a Destructure those of its pattern.
    pub fn item_rule(kind: Kind, aux: u32) -> (u32, &'static [Tag]) {
        use Kind::*;
        match kind {
            Primitive | JSXText | LoadGlobal | RegExpLiteral | MetaProperty | Debugger
            | FunctionExpression | ObjectMethod => (0, &[]),
            LoadLocal | LoadContext | DeclareLocal | DeclareContext | UnaryExpression
            | TypeCastExpression | PropertyLoad | PropertyDelete | StoreGlobal | Await | GetIterator
            | NextPropertyOf | FinishMemoize => (1, &[]),
            StoreLocal | StoreContext | BinaryExpression | PropertyStore | ComputedLoad | ComputedDelete
            | IteratorNext | PrefixUpdate | PostfixUpdate => (2, &[]),
            ComputedStore => (3, &[]),
            NewExpression | CallExpression => (1, &[Tag::Place, Tag::Spread]),
            MethodCall => (2, &[Tag::Place, Tag::Spread]),
            TaggedTemplateExpression => (1, &[Tag::Place]),
            TemplateLiteral | JsxFragment | StartMemoize => (0, &[Tag::Place]),
            JsxExpression => (0, &[Tag::Place, Tag::Spread, Tag::Attribute]),
            ArrayExpression => (0, &[Tag::Place, Tag::Spread, Tag::Hole]),
            Destructure if aux == 0 => (0, &[Tag::Place, Tag::Spread, Tag::Hole]),
            ObjectExpression | Destructure => {
                (0, &[Tag::Spread, Tag::NamedKey, Tag::ComputedKey, Tag::OtherKey])
            }
        }
    }
}

#[derive(Clone, Debug, Default)]
pub struct Block {
    /// Place and operands of each phi.
    pub phis: Vec<(u32, Vec<u32>)>,
    pub instructions: Vec<Instruction>,
    /// The identifier of a Return.
    pub returned: Option<u32>,
}

#[derive(Clone, Debug)]
pub struct Body {
    pub fn_type: FnType,
    pub returns: u32,
    /// Whether it is a spread, and the identifier, of each parameter.
    pub params: Vec<(bool, u32)>,
    pub context: Vec<u32>,
    pub blocks: Vec<Block>,
}

impl Body {
    pub fn new(returns: u32, blocks: Vec<Block>) -> Body {
        Body { fn_type: FnType::Other, returns, params: vec![], context: vec![], blocks }
    }

    /// One block of these instructions.
    pub fn of(returns: u32, instructions: Vec<Instruction>) -> Body {
        Body::new(returns, vec![Block { instructions, ..Block::default() }])
    }

    /// The words, each with its role.
    pub fn words(&self) -> Vec<(u32, Role)> {
        let mut out = vec![(self.fn_type as u32, Role::FnType), (self.returns, Role::Identifier)];
        push_count(&mut out, self.params.len());
        for &(spread, identifier) in &self.params {
            out.extend([(spread as u32, Role::Flag), (identifier, Role::Identifier)]);
        }
        push_identifiers(&mut out, &self.context);
        push_count(&mut out, self.blocks.len());
        for block in &self.blocks {
            block.push(&mut out);
        }
        out
    }
}

impl Block {
    fn push(&self, out: &mut Vec<(u32, Role)>) {
        push_count(out, self.phis.len());
        for (place, operands) in &self.phis {
            out.push((*place, Role::Identifier));
            push_identifiers(out, operands);
        }
        push_count(out, self.instructions.len());
        for one in &self.instructions {
            out.extend([(one.kind as u32, Role::Kind), (one.lvalue, Role::Identifier)]);
            out.push((one.aux, Instruction::aux_role(one.kind)));
            push_count(out, one.items.len());
            for item in &one.items {
                out.extend([item.tag as u32, item.identifier, item.key].into_iter().zip(item.roles()));
            }
        }
        out.extend(match self.returned {
            Some(identifier) => [(1, Role::Flag), (identifier, Role::Identifier)],
            None => [(0, Role::Flag), (0, Role::Zero)],
        });
    }
}

fn push_count(out: &mut Vec<(u32, Role)>, count: usize) {
    out.push((count as u32, Role::Count));
}

fn push_identifiers(out: &mut Vec<(u32, Role)>, identifiers: &[u32]) {
    push_count(out, identifiers.len());
    out.extend(identifiers.iter().map(|&identifier| (identifier, Role::Identifier)));
}

/// The order of tables and bodies in the words, and words between them.
pub struct Layout {
    pub tables: Vec<Table>,
    pub bodies: Vec<usize>,
    /// Words before each table and each body, in turn; none where this is shorter.
    pub gaps: Vec<Vec<u32>>,
}

/// An image in its parts. Each method that adds a row gives the row's number.
#[derive(Clone)]
pub struct Image {
    pub options: u32,
    pub hook: u32,
    pub bytes: Vec<u8>,
    pub bodies: Vec<Body>,
    tables: [Vec<u32>; 7],
}

impl Default for Image {
    fn default() -> Self {
        Image::new()
    }
}

impl Image {
    /// No options, no hook type, nine absent shapes.
    pub fn new() -> Image {
        let mut image =
            Image { options: 0, hook: NONE, bytes: vec![], bodies: vec![], tables: Default::default() };
        for number in 0..9 {
            image.set_shape(number, [0, 0, 0]);
        }
        image
    }

    /// A row of any table but that of the functions.
    pub fn row(&mut self, table: Table, words: &[u32]) -> u32 {
        assert_eq!(words.len(), table.width());
        self.tables[table as usize].extend(words);
        self.count(table) - 1
    }

    pub fn count(&self, table: Table) -> u32 {
        match table {
            Table::Functions => self.bodies.len() as u32,
            _ => (self.tables[table as usize].len() / table.width()) as u32,
        }
    }

    pub fn cell(&mut self, table: Table, row: u32, field: usize) -> &mut u32 {
        &mut self.tables[table as usize][row as usize * table.width() + field]
    }

    /// The words of a table's rows, but for the functions.
    pub fn rows(&self, table: Table) -> &[u32] {
        &self.tables[table as usize]
    }

    /// A name with bytes of its own.
    pub fn name(&mut self, text: &[u8]) -> u32 {
        self.bytes.extend(text);
        self.name_range(self.bytes.len() - text.len(), text.len())
    }

    pub fn name_range(&mut self, start: usize, length: usize) -> u32 {
        self.row(Table::Names, &[start as u32, length as u32])
    }

    pub fn identifier(&mut self, slot: u32, name: u32) -> u32 {
        self.row(Table::Identifiers, &[slot, name])
    }

    pub fn slot(&mut self, of_type: u32) -> u32 {
        self.row(Table::Slots, &[of_type])
    }

    /// An unnamed identifier whose slot is its own Var.
    pub fn variable(&mut self) -> u32 {
        let own = self.var(self.count(Table::Slots));
        let slot = self.slot(own);
        self.identifier(slot, NONE)
    }

    pub fn var(&mut self, slot: u32) -> u32 {
        self.row(Table::Types, &[type_kinds::VAR, slot, 0])
    }

    pub fn primitive(&mut self) -> u32 {
        self.row(Table::Types, &[type_kinds::PRIMITIVE, 0, 0])
    }

    pub fn poly(&mut self) -> u32 {
        self.row(Table::Types, &[type_kinds::POLY, 0, 0])
    }

    pub fn method(&mut self) -> u32 {
        self.row(Table::Types, &[type_kinds::OBJECT_METHOD, 0, 0])
    }

    pub fn object(&mut self, shape: u32) -> u32 {
        self.row(Table::Types, &[type_kinds::OBJECT, shape, 0])
    }

    pub fn function(&mut self, shape: u32, returns: u32) -> u32 {
        self.row(Table::Types, &[type_kinds::FUNCTION, shape, returns])
    }

    pub fn constructor(&mut self, shape: u32, returns: u32) -> u32 {
        self.row(Table::Types, &[type_kinds::CONSTRUCTOR, shape, returns])
    }

    /// A Phi with list words of its own.
    pub fn phi(&mut self, operands: &[u32]) -> u32 {
        let first = self.list(operands);
        self.phi_over(first, operands.len() as u32)
    }

    pub fn phi_over(&mut self, first: u32, count: u32) -> u32 {
        self.row(Table::Types, &[type_kinds::PHI, first, count])
    }

    /// Adds list words; gives the number of the first.
    pub fn list(&mut self, words: &[u32]) -> u32 {
        self.tables[Table::Lists as usize].extend(words);
        self.count(Table::Lists) - words.len() as u32
    }

    /// The row of a shape that is there, or of the next.
    pub fn set_shape(&mut self, number: u32, row: [u32; 3]) {
        let at = 3 * number as usize;
        let rows = &mut self.tables[Table::Shapes as usize];
        rows.splice(at..rows.len().min(at + 3), row);
    }

    /// A present shape over property rows.
    pub fn shape(&mut self, first: u32, count: u32) -> u32 {
        self.row(Table::Shapes, &[1, first, count])
    }

    pub fn property(&mut self, name: u32, of_type: u32) -> u32 {
        self.row(Table::Properties, &[name, of_type])
    }

    /// A function of this body.
    pub fn body(&mut self, body: Body) -> u32 {
        self.bodies.push(body);
        self.bodies.len() as u32 - 1
    }

    /// Tables and bodies in their order, without gaps.
    pub fn layout(&self) -> Layout {
        Layout { tables: Table::ALL.to_vec(), bodies: (0..self.bodies.len()).collect(), gaps: vec![] }
    }

    pub fn write(&self) -> Input {
        self.write_as(&self.layout())
    }

    pub fn write_as(&self, layout: &Layout) -> Input {
        let mut words = vec![0; HEADER_WORDS];
        let mut gaps = layout.gaps.iter();
        for &table in &layout.tables {
            words.extend(gaps.next().into_iter().flatten());
            words[table.count_at()] = self.count(table);
            words[table.offset_at()] = words.len() as u32;
            match table {
                Table::Functions => words.resize(words.len() + 2 * self.bodies.len(), 0),
                _ => words.extend(&self.tables[table as usize]),
            }
        }
        for &number in &layout.bodies {
            words.extend(gaps.next().into_iter().flatten());
            let row = words[Table::Functions.offset_at()] as usize + 2 * number;
            words[row] = words.len() as u32;
            words.extend(self.bodies[number].words().iter().map(|&(word, _)| word));
            words[row + 1] = words.len() as u32 - words[row];
        }
        words[VERSION] = 1;
        words[OPTIONS] = self.options;
        words[HOOK] = self.hook;
        words[LENGTH] = words.len() as u32;
        Input::new(words, self.bytes.clone(), 1_024)
    }

    /// The position and role of each body word of an input that this image was written as.
    pub fn roles(&self, input: &Input) -> Vec<(usize, Role)> {
        let mut roles = vec![];
        for (number, body) in self.bodies.iter().enumerate() {
            let start = input.image[input.at(Table::Functions, number as u32, 0)] as usize;
            roles.extend(body.words().iter().enumerate().map(|(k, &(_, role))| (start + k, role)));
        }
        roles
    }
}

/// What the library is given.
#[derive(Clone, Debug, PartialEq)]
pub struct Input {
    pub image: Vec<u32>,
    pub names: Vec<u8>,
    pub budget: u32,
    pub work: usize,
}

impl Input {
    /// With as many work words as are asked for.
    pub fn new(image: Vec<u32>, names: Vec<u8>, budget: u32) -> Input {
        let mut input = Input { image, names, budget, work: 0 };
        input.lend_enough();
        input
    }

    /// As many work words as are asked for.
    pub fn lend_enough(&mut self) {
        self.work = 8 * (self.image.len() + self.budget as usize);
    }

    /// Adds words that are in no table up to a length, and says that length in the header.
    pub fn extend_to(&mut self, words: usize) {
        self.image.resize(words, NONE);
        self.image[LENGTH] = words as u32;
        self.lend_enough();
    }

    pub fn count(&self, table: Table) -> u32 {
        self.image[table.count_at()]
    }

    /// The position of a field of a row.
    pub fn at(&self, table: Table, row: u32, field: usize) -> usize {
        self.image[table.offset_at()] as usize + row as usize * table.width() + field
    }

    pub fn cell(&mut self, table: Table, row: u32, field: usize) -> &mut u32 {
        let at = self.at(table, row, field);
        &mut self.image[at]
    }
}
