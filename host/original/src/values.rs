//! The values of instructions: what kind, aux word and items of an image stand for in the HIR.

use crate::react_compiler_hir::*;
use crate::screen::Image;
use crate::stand_ins::hir::place;
use crate::stand_ins::oxc_allocator::Vec as ArenaVec;
use crate::stand_ins::oxc_ast::ast::{BinaryOperator, TSType, UpdateOperator};
use crate::stand_ins::oxc_str::{Ident, Str};
use infer_image::parts::{Kind, NONE, Tag};

/// An item of an instruction; of a hole, the place is nothing.
#[derive(Clone, Copy)]
pub struct Item {
    pub tag: Tag,
    pub place: Place,
    pub key: u32,
}

const ARITHMETIC: [BinaryOperator; 15] = [
    BinaryOperator::Addition,
    BinaryOperator::Subtraction,
    BinaryOperator::Division,
    BinaryOperator::Remainder,
    BinaryOperator::Multiplication,
    BinaryOperator::Exponential,
    BinaryOperator::BitwiseAnd,
    BinaryOperator::BitwiseOR,
    BinaryOperator::ShiftRight,
    BinaryOperator::ShiftLeft,
    BinaryOperator::BitwiseXOR,
    BinaryOperator::GreaterThan,
    BinaryOperator::LessThan,
    BinaryOperator::GreaterEqualThan,
    BinaryOperator::LessEqualThan,
];
const OTHER_BINARY: [BinaryOperator; 7] = [
    BinaryOperator::Equality,
    BinaryOperator::Inequality,
    BinaryOperator::StrictEquality,
    BinaryOperator::StrictInequality,
    BinaryOperator::ShiftRightZeroFill,
    BinaryOperator::In,
    BinaryOperator::Instanceof,
];
const NOT_CONST: [InstructionKind; 7] = [
    InstructionKind::Let,
    InstructionKind::Reassign,
    InstructionKind::Catch,
    InstructionKind::HoistedConst,
    InstructionKind::HoistedLet,
    InstructionKind::HoistedFunction,
    InstructionKind::Function,
];
const UNARY: [UnaryOperator; 6] = [
    UnaryOperator::Minus,
    UnaryOperator::Plus,
    UnaryOperator::Not,
    UnaryOperator::BitwiseNot,
    UnaryOperator::TypeOf,
    UnaryOperator::Void,
];

/// One of several forms that are alike to the pass, in turn.
fn one_of<T: Copy>(forms: &[T], turn: usize) -> T {
    forms[turn % forms.len()]
}

fn list<'a, T>(items: &[Item], of: impl Fn(&Item) -> T) -> ArenaVec<'a, T> {
    ArenaVec::from_vec(items.iter().map(of).collect())
}

fn places<'a>(items: &[Item]) -> ArenaVec<'a, Place> {
    list(items, |item| item.place)
}

fn arguments<'a>(items: &[Item]) -> ArenaVec<'a, PlaceOrSpread> {
    list(items, |item| match item.tag {
        Tag::Spread => PlaceOrSpread::Spread(SpreadPattern { place: item.place }),
        _ => PlaceOrSpread::Place(item.place),
    })
}

fn elements<'a>(items: &[Item]) -> ArenaVec<'a, ArrayElement> {
    list(items, |item| match item.tag {
        Tag::Hole => ArrayElement::Hole,
        Tag::Spread => ArrayElement::Spread(SpreadPattern { place: item.place }),
        _ => ArrayElement::Place(item.place),
    })
}

fn array_pattern<'a>(items: &[Item]) -> Pattern<'a> {
    let items = list(items, |item| match item.tag {
        Tag::Hole => ArrayPatternElement::Hole,
        Tag::Spread => ArrayPatternElement::Spread(SpreadPattern { place: item.place }),
        _ => ArrayPatternElement::Place(item.place),
    });
    Pattern::Array(ArrayPattern { items })
}

impl<'a> Image<'_, 'a> {
    /// The value of an instruction; the turn chooses among forms that are alike to the pass.
    pub fn value(&self, kind: usize, aux: u32, items: &[Item], turn: usize) -> InstructionValue<'a> {
        use InstructionValue as Value;
        let span = None;
        let at = |number: usize| items[number].place;
        let const_lvalue = || LValue { place: at(0), kind: InstructionKind::Const };
        let lvalue = || LValue { place: at(0), kind: one_of(&NOT_CONST, turn) };
        let lowered_func = || LoweredFunction { func: FunctionId::from_usize(aux as usize) };
        match Kind::ALL[kind] {
            Kind::LoadLocal => Value::LoadLocal { place: at(0), span },
            Kind::LoadContext => Value::LoadContext { place: at(0), span },
            Kind::DeclareLocal => Value::DeclareLocal { lvalue: lvalue(), span },
            Kind::DeclareContext => Value::DeclareContext { lvalue: lvalue(), span },
            Kind::StoreLocal => Value::StoreLocal { lvalue: lvalue(), value: at(1), span },
            Kind::StoreContext if aux == 1 => {
                Value::StoreContext { lvalue: const_lvalue(), value: at(1), span }
            }
            Kind::StoreContext => Value::StoreContext { lvalue: lvalue(), value: at(1), span },
            Kind::Destructure => self.destructure(aux, items, turn),
            Kind::Primitive => Value::Primitive { value: PrimitiveValue::Null, span },
            Kind::JSXText => Value::JSXText { value: Str("text"), span },
            Kind::BinaryExpression => {
                let operator = if aux == 1 { one_of(&ARITHMETIC, turn) } else { one_of(&OTHER_BINARY, turn) };
                Value::BinaryExpression { operator, left: at(0), right: at(1), span }
            }
            Kind::NewExpression => Value::NewExpression { callee: at(0), args: arguments(&items[1..]), span },
            Kind::CallExpression => {
                Value::CallExpression { callee: at(0), args: arguments(&items[1..]), span }
            }
            Kind::MethodCall => {
                Value::MethodCall { receiver: at(0), property: at(1), args: arguments(&items[2..]), span }
            }
            Kind::UnaryExpression => {
                Value::UnaryExpression { operator: one_of(&UNARY, turn), value: at(0), span }
            }
            Kind::TypeCastExpression => {
                Value::TypeCastExpression { value: at(0), cast: TypeCast::As(&TSType::ANY), span }
            }
            Kind::JsxExpression => self.jsx(items),
            Kind::ObjectExpression => Value::ObjectExpression {
                properties: list(items, |item| self.property(item, turn, |item| self.other_key(item))),
                span,
            },
            Kind::ObjectMethod => Value::ObjectMethod { span, lowered_func: lowered_func() },
            Kind::ArrayExpression => Value::ArrayExpression { elements: elements(items), span },
            Kind::JsxFragment => Value::JsxFragment { children: places(items), span },
            Kind::RegExpLiteral => Value::RegExpLiteral { pattern: Str("a"), flags: Str("g"), span },
            Kind::MetaProperty => {
                Value::MetaProperty { meta: Ident::new("import"), property: Ident::new("meta"), span }
            }
            Kind::PropertyStore => {
                Value::PropertyStore { object: at(0), property: self.literal(aux), value: at(1), span }
            }
            Kind::PropertyLoad => Value::PropertyLoad { object: at(0), property: self.literal(aux), span },
            Kind::PropertyDelete => {
                Value::PropertyDelete { object: at(0), property: self.literal(NONE), span }
            }
            Kind::ComputedStore => {
                Value::ComputedStore { object: at(0), property: at(1), value: at(2), span }
            }
            Kind::ComputedLoad => Value::ComputedLoad { object: at(0), property: at(1), span },
            Kind::ComputedDelete => Value::ComputedDelete { object: at(0), property: at(1), span },
            Kind::LoadGlobal => {
                Value::LoadGlobal { binding: NonLocalBinding::Global { name: self.global_name(aux) }, span }
            }
            Kind::StoreGlobal => Value::StoreGlobal { name: Ident::new("stored"), value: at(0), span },
            Kind::FunctionExpression => Value::FunctionExpression {
                name: None,
                name_hint: None,
                lowered_func: lowered_func(),
                expr_type: FunctionExpressionType::ArrowFunctionExpression,
                span,
            },
            Kind::TaggedTemplateExpression => Value::TaggedTemplateExpression {
                tag: at(0),
                quasis: ArenaVec::from_vec(vec![]),
                subexprs: places(&items[1..]),
                span,
            },
            Kind::TemplateLiteral => {
                Value::TemplateLiteral { subexprs: places(items), quasis: ArenaVec::from_vec(vec![]), span }
            }
            Kind::Await => Value::Await { value: at(0), span },
            Kind::GetIterator => Value::GetIterator { collection: at(0), span },
            Kind::IteratorNext => Value::IteratorNext { iterator: at(0), collection: at(1), span },
            Kind::NextPropertyOf => Value::NextPropertyOf { value: at(0), span },
            Kind::PrefixUpdate => Value::PrefixUpdate {
                lvalue: at(1),
                operation: UpdateOperator::Increment,
                value: at(0),
                span,
            },
            Kind::PostfixUpdate => Value::PostfixUpdate {
                lvalue: at(1),
                operation: UpdateOperator::Decrement,
                value: at(0),
                span,
            },
            Kind::Debugger => Value::Debugger { span },
            Kind::StartMemoize => self.start_memoize(items, turn),
            Kind::FinishMemoize => {
                Value::FinishMemoize { manual_memo_id: 0, decl: at(0), pruned: false, span }
            }
        }
    }

    fn literal(&self, name: u32) -> PropertyLiteral<'a> {
        match name {
            NONE => PropertyLiteral::Number(FloatValue::new(0.0)),
            name => PropertyLiteral::String(self.name(name)),
        }
    }

    /// A property or a spread; what an "other key" becomes is given.
    fn property(
        &self,
        item: &Item,
        turn: usize,
        other: impl Fn(&Item) -> ObjectPropertyKey<'a>,
    ) -> ObjectPropertyOrSpread<'a> {
        let key = match item.tag {
            Tag::Spread => return ObjectPropertyOrSpread::Spread(SpreadPattern { place: item.place }),
            Tag::NamedKey if turn % 2 == 0 => ObjectPropertyKey::Identifier { name: self.name(item.key) },
            Tag::NamedKey => ObjectPropertyKey::String { name: self.name(item.key) },
            Tag::ComputedKey => {
                ObjectPropertyKey::Computed { name: place(IdentifierId::from_usize(item.key as usize)) }
            }
            _ => other(item),
        };
        ObjectPropertyOrSpread::Property(ObjectProperty {
            key,
            property_type: one_of(&[ObjectPropertyType::Property, ObjectPropertyType::Method], turn),
            place: item.place,
        })
    }

    /// "Other key" in an object: the Rust has no such key; a name makes no equation there.
    fn other_key(&self, _item: &Item) -> ObjectPropertyKey<'a> {
        ObjectPropertyKey::String { name: Ident::new("other") }
    }

    fn destructure(&self, aux: u32, items: &[Item], turn: usize) -> InstructionValue<'a> {
        let (value, items) = items.split_last().expect("the value's place");
        // "other key" in a pattern: a computed key makes no equation there and isn't visited
        let other = |item: &Item| ObjectPropertyKey::Computed { name: item.place };
        let pattern = match aux {
            0 => array_pattern(items),
            _ => Pattern::Object(ObjectPattern {
                properties: list(items, |item| self.property(item, turn, other)),
            }),
        };
        let kind = one_of(&NOT_CONST, turn);
        InstructionValue::Destructure {
            lvalue: LValuePattern { pattern, kind },
            value: value.place,
            span: None,
        }
    }

    /// The first item is the tag if it is a place; other places are children.
    fn jsx(&self, items: &[Item]) -> InstructionValue<'a> {
        let (tag, items) = match items.split_first() {
            Some((first, rest)) if first.tag == Tag::Place => (JsxTag::Place(first.place), rest),
            _ => (JsxTag::Builtin(BuiltinTag { name: Ident::new("div") }), items),
        };
        let (children, props): (Vec<Item>, Vec<Item>) = items.iter().partition(|item| item.tag == Tag::Place);
        let props = list(&props, |item| match item.tag {
            Tag::Spread => JsxAttribute::SpreadAttribute { argument: item.place },
            _ => JsxAttribute::Attribute { name: self.name(item.key), place: item.place },
        });
        let children = (!children.is_empty()).then(|| places(&children));
        InstructionValue::JsxExpression {
            tag,
            props,
            children,
            span: None,
            opening_span: None,
            closing_span: None,
        }
    }

    /// Every other one has a dependency on a global beside those on places.
    fn start_memoize(&self, items: &[Item], turn: usize) -> InstructionValue<'a> {
        let dependency = |root| ManualMemoDependency { root, path: ArenaVec::from_vec(vec![]), span: None };
        let local = |item: &Item| ManualMemoDependencyRoot::NamedLocal { value: item.place, constant: false };
        let global = ManualMemoDependencyRoot::Global { identifier_name: Ident::new("global") };
        let roots = items.iter().map(local).chain((turn % 2 == 0).then_some(global));
        let deps: Vec<_> = roots.map(dependency).collect();
        InstructionValue::StartMemoize {
            manual_memo_id: 0,
            deps: (!deps.is_empty()).then(|| ArenaVec::from_vec(deps)),
            deps_span: None,
            has_invalid_deps: false,
            span: None,
        }
    }
}
