//! Bodies, blocks and instructions, a method for each kind.

use crate::builder::{Function, Identifier, Name, Type};
use crate::parts::{self, FnType, Instruction, Item, Kind, Tag, NONE};

/// A function's body.
#[derive(Clone, Debug)]
pub struct Body(parts::Body);

impl Body {
    fn new(fn_type: FnType, returns: Identifier) -> Body {
        Body(parts::Body { fn_type, ..parts::Body::new(returns.0, vec![]) })
    }

    /// A component; the identifier is that of what it returns.
    pub fn component(returns: Identifier) -> Body {
        Body::new(FnType::Component, returns)
    }

    pub fn hook(returns: Identifier) -> Body {
        Body::new(FnType::Hook, returns)
    }

    pub fn other(returns: Identifier) -> Body {
        Body::new(FnType::Other, returns)
    }

    pub fn param(mut self, identifier: Identifier) -> Body {
        self.0.params.push((false, identifier.0));
        self
    }

    pub fn spread_param(mut self, identifier: Identifier) -> Body {
        self.0.params.push((true, identifier.0));
        self
    }

    /// A variable of the function around this one.
    pub fn context(mut self, identifier: Identifier) -> Body {
        self.0.context.push(identifier.0);
        self
    }

    pub fn block(mut self, block: Block) -> Body {
        self.0.blocks.push(block.0);
        self
    }

    pub(crate) fn into_parts(self) -> parts::Body {
        self.0
    }
}

/// An argument of a call.
#[derive(Clone, Copy, Debug, PartialEq)]
pub enum Argument {
    Place(Identifier),
    Spread(Identifier),
}

/// An element of an array or an array pattern.
#[derive(Clone, Copy, Debug, PartialEq)]
pub enum Element {
    Place(Identifier),
    Spread(Identifier),
    Hole,
}

/// A property of an object or an object pattern.
#[derive(Clone, Copy, Debug, PartialEq)]
pub enum Key {
    Named(Name, Identifier),
    /// The key's identifier, then the value's.
    Computed(Identifier, Identifier),
    Other(Identifier),
    Spread(Identifier),
}

/// What a JSX expression has beside its tag: attributes, then children.
#[derive(Clone, Copy, Debug, PartialEq)]
pub enum Prop {
    Attribute(Name, Identifier),
    Spread(Identifier),
    Child(Identifier),
}

fn place(identifier: Identifier) -> Item {
    Item::place(identifier.0)
}

fn places(identifiers: &[Identifier]) -> impl Iterator<Item = Item> + '_ {
    identifiers.iter().copied().map(place)
}

fn item(tag: Tag, identifier: Identifier, key: u32) -> Item {
    Item { tag, identifier: identifier.0, key }
}

impl Argument {
    fn item(&self) -> Item {
        match *self {
            Argument::Place(one) => place(one),
            Argument::Spread(one) => item(Tag::Spread, one, 0),
        }
    }
}

impl Element {
    fn item(&self) -> Item {
        match *self {
            Element::Place(one) => place(one),
            Element::Spread(one) => item(Tag::Spread, one, 0),
            Element::Hole => item(Tag::Hole, Identifier(0), 0),
        }
    }
}

impl Key {
    fn item(&self) -> Item {
        match *self {
            Key::Named(name, one) => item(Tag::NamedKey, one, name.0),
            Key::Computed(key, one) => item(Tag::ComputedKey, one, key.0),
            Key::Other(one) => item(Tag::OtherKey, one, 0),
            Key::Spread(one) => item(Tag::Spread, one, 0),
        }
    }
}

impl Prop {
    fn item(&self) -> Item {
        match *self {
            Prop::Attribute(name, one) => item(Tag::Attribute, one, name.0),
            Prop::Spread(one) => item(Tag::Spread, one, 0),
            Prop::Child(one) => place(one),
        }
    }
}

/// A block: phis, instructions in their order, and what it returns. An instruction's first identifier is its lvalue.
#[derive(Clone, Debug, Default)]
pub struct Block(parts::Block);

/// Methods for the kinds that have a fixed number of places.
macro_rules! fixed {
    ($($method:ident $kind:ident ($($place:ident),*);)*) => {
        $(pub fn $method(&mut self, lvalue: Identifier $(, $place: Identifier)*) -> &mut Self {
            self.push(Kind::$kind, lvalue, 0, vec![$(place($place)),*])
        })*
    };
}

impl Block {
    pub fn new() -> Block {
        Block::default()
    }

    pub fn phi(&mut self, to: Identifier, operands: &[Identifier]) -> &mut Self {
        self.0.phis.push((to.0, operands.iter().map(|one| one.0).collect()));
        self
    }

    /// The block ends in a Return of this.
    pub fn returns(&mut self, identifier: Identifier) -> &mut Self {
        self.0.returned = Some(identifier.0);
        self
    }

    /// The block by itself, after a chain of methods.
    pub fn take(&mut self) -> Block {
        std::mem::take(self)
    }

    fn push(&mut self, kind: Kind, lvalue: Identifier, aux: u32, items: Vec<Item>) -> &mut Self {
        self.0.instructions.push(Instruction::new(kind, lvalue.0, aux, items));
        self
    }

    fixed! {
        load_local LoadLocal(from);
        load_context LoadContext(from);
        declare_local DeclareLocal(declared);
        declare_context DeclareContext(declared);
        store_local StoreLocal(to, value);
        primitive Primitive();
        jsx_text JSXText();
        unary UnaryExpression(value);
        type_cast TypeCastExpression(value);
        reg_exp RegExpLiteral();
        meta_property MetaProperty();
        property_delete PropertyDelete(object);
        computed_store ComputedStore(object, property, value);
        computed_load ComputedLoad(object, property);
        computed_delete ComputedDelete(object, property);
        store_global StoreGlobal(value);
        await_value Await(value);
        get_iterator GetIterator(collection);
        iterator_next IteratorNext(iterator, collection);
        next_property_of NextPropertyOf(value);
        prefix_update PrefixUpdate(value, to);
        postfix_update PostfixUpdate(value, to);
        debugger Debugger();
        finish_memoize FinishMemoize(declared);
    }

    /// A variable of an outer function is stored to; `constant` if it is declared with const.
    pub fn store_context(
        &mut self,
        lvalue: Identifier,
        constant: bool,
        to: Identifier,
        value: Identifier,
    ) -> &mut Self {
        self.push(Kind::StoreContext, lvalue, constant as u32, vec![place(to), place(value)])
    }

    /// `primitive` if the operator makes its operands primitive (`is_primitive_binary_op`).
    pub fn binary(
        &mut self,
        lvalue: Identifier,
        primitive: bool,
        left: Identifier,
        right: Identifier,
    ) -> &mut Self {
        self.push(Kind::BinaryExpression, lvalue, primitive as u32, vec![place(left), place(right)])
    }

    pub fn destructure_array(
        &mut self,
        lvalue: Identifier,
        pattern: &[Element],
        value: Identifier,
    ) -> &mut Self {
        let items = pattern.iter().map(Element::item).chain([place(value)]);
        self.push(Kind::Destructure, lvalue, 0, items.collect())
    }

    pub fn destructure_object(
        &mut self,
        lvalue: Identifier,
        pattern: &[Key],
        value: Identifier,
    ) -> &mut Self {
        let items = pattern.iter().map(Key::item).chain([place(value)]);
        self.push(Kind::Destructure, lvalue, 1, items.collect())
    }

    pub fn new_object(
        &mut self,
        lvalue: Identifier,
        callee: Identifier,
        arguments: &[Argument],
    ) -> &mut Self {
        self.push_call(Kind::NewExpression, lvalue, &[callee], arguments)
    }

    pub fn call(&mut self, lvalue: Identifier, callee: Identifier, arguments: &[Argument]) -> &mut Self {
        self.push_call(Kind::CallExpression, lvalue, &[callee], arguments)
    }

    pub fn method_call(
        &mut self,
        lvalue: Identifier,
        receiver: Identifier,
        property: Identifier,
        arguments: &[Argument],
    ) -> &mut Self {
        self.push_call(Kind::MethodCall, lvalue, &[receiver, property], arguments)
    }

    fn push_call(
        &mut self,
        kind: Kind,
        lvalue: Identifier,
        first: &[Identifier],
        arguments: &[Argument],
    ) -> &mut Self {
        let items = places(first).chain(arguments.iter().map(Argument::item));
        self.push(kind, lvalue, 0, items.collect())
    }

    /// The tag is an identifier, or None for a built-in one.
    pub fn jsx(&mut self, lvalue: Identifier, tag: Option<Identifier>, props: &[Prop]) -> &mut Self {
        let items = tag.into_iter().map(place).chain(props.iter().map(Prop::item));
        self.push(Kind::JsxExpression, lvalue, 0, items.collect())
    }

    pub fn jsx_fragment(&mut self, lvalue: Identifier, children: &[Identifier]) -> &mut Self {
        self.push(Kind::JsxFragment, lvalue, 0, places(children).collect())
    }

    pub fn object(&mut self, lvalue: Identifier, properties: &[Key]) -> &mut Self {
        self.push(Kind::ObjectExpression, lvalue, 0, properties.iter().map(Key::item).collect())
    }

    pub fn array(&mut self, lvalue: Identifier, elements: &[Element]) -> &mut Self {
        self.push(Kind::ArrayExpression, lvalue, 0, elements.iter().map(Element::item).collect())
    }

    /// The property is a name, or None for a number.
    pub fn property_load(
        &mut self,
        lvalue: Identifier,
        object: Identifier,
        property: Option<Name>,
    ) -> &mut Self {
        self.push(Kind::PropertyLoad, lvalue, name_or_none(property), vec![place(object)])
    }

    /// The property is a name, or None for a number.
    pub fn property_store(
        &mut self,
        lvalue: Identifier,
        object: Identifier,
        property: Option<Name>,
        value: Identifier,
    ) -> &mut Self {
        self.push(Kind::PropertyStore, lvalue, name_or_none(property), vec![place(object), place(value)])
    }

    /// A global of this type, or of none that is known.
    pub fn load_global(&mut self, lvalue: Identifier, of: Option<Type>) -> &mut Self {
        self.push(Kind::LoadGlobal, lvalue, of.map_or(NONE, |of| of.0), vec![])
    }

    pub fn function_expression(&mut self, lvalue: Identifier, function: Function) -> &mut Self {
        self.push(Kind::FunctionExpression, lvalue, function.0, vec![])
    }

    pub fn object_method(&mut self, lvalue: Identifier, function: Function) -> &mut Self {
        self.push(Kind::ObjectMethod, lvalue, function.0, vec![])
    }

    pub fn tagged_template(
        &mut self,
        lvalue: Identifier,
        tag: Identifier,
        values: &[Identifier],
    ) -> &mut Self {
        self.push(Kind::TaggedTemplateExpression, lvalue, 0, places(&[tag]).chain(places(values)).collect())
    }

    pub fn template_literal(&mut self, lvalue: Identifier, values: &[Identifier]) -> &mut Self {
        self.push(Kind::TemplateLiteral, lvalue, 0, places(values).collect())
    }

    /// The dependencies are those on local variables.
    pub fn start_memoize(&mut self, lvalue: Identifier, dependencies: &[Identifier]) -> &mut Self {
        self.push(Kind::StartMemoize, lvalue, 0, places(dependencies).collect())
    }
}

fn name_or_none(name: Option<Name>) -> u32 {
    name.map_or(NONE, |name| name.0)
}
