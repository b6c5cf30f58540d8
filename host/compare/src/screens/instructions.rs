//! Single instructions of every kind.

use super::*;

/// How often each kind comes; the others have 2.
const WEIGHTS: &[(Kind, u32)] = &[
    (Kind::LoadLocal, 8),
    (Kind::StoreLocal, 7),
    (Kind::LoadGlobal, 9),
    (Kind::PropertyLoad, 9),
    (Kind::CallExpression, 6),
    (Kind::MethodCall, 4),
    (Kind::Destructure, 6),
    (Kind::FunctionExpression, 8),
    (Kind::ObjectMethod, 5),
    (Kind::NewExpression, 3),
    (Kind::ComputedLoad, 3),
    (Kind::PropertyStore, 3),
    (Kind::ObjectExpression, 3),
    (Kind::JsxExpression, 4),
    (Kind::StoreContext, 4),
    (Kind::Primitive, 3),
    (Kind::TaggedTemplateExpression, 3),
];

fn weight(kind: Kind, depth: u32) -> u32 {
    match kind {
        Kind::FunctionExpression | Kind::ObjectMethod if depth >= 6 => 0,
        Kind::FunctionExpression if depth > 1 => 14,
        _ => WEIGHTS.iter().find(|one| one.0 == kind).map_or(2, |one| one.1),
    }
}

/// Whether the lvalue among the items may lead a variable back to itself.
fn makes_a_cycle(kind: Kind) -> bool {
    use Kind::*;
    matches!(
        kind,
        CallExpression | NewExpression | MethodCall | TaggedTemplateExpression | PropertyLoad | ComputedLoad
    )
}

impl Writer<'_> {
    pub(super) fn kind(&mut self, depth: u32) -> Kind {
        let total = Kind::ALL.iter().map(|&kind| weight(kind, depth)).sum();
        let mut at = self.random.below(total);
        for &kind in Kind::ALL {
            if at < weight(kind, depth) {
                return kind;
            }
            at -= weight(kind, depth);
        }
        unreachable!("below the total")
    }

    pub(super) fn instruction(&mut self, scope: &mut Scope, kind: Kind) -> Instruction {
        let aux = self.aux(scope, kind);
        let items = self.items(scope, kind, aux);
        let lvalue =
            match self.chance(if makes_a_cycle(kind) { self.rare / 200 } else { 60 }) && !items.is_empty() {
                true => {
                    let item = &items[self.random.below(items.len() as u32) as usize];
                    if item.tag == Tag::ComputedKey {
                        item.key
                    } else {
                        item.identifier
                    }
                }
                false => self.lvalue(scope),
            };
        Instruction::new(kind, lvalue, aux, items)
    }

    fn aux(&mut self, scope: &mut Scope, kind: Kind) -> u32 {
        match Instruction::aux_role(kind) {
            Role::Flag => self.random.below(2),
            Role::NameOrNone if self.random.percent(15) => NONE,
            Role::NameOrNone => self.property_name(),
            Role::TypeOrNone if self.random.percent(10) => NONE,
            Role::TypeOrNone => self.any_type(3),
            Role::Function => self.function(Some(scope)),
            _ => 0,
        }
    }

    fn items(&mut self, scope: &mut Scope, kind: Kind, aux: u32) -> Vec<Item> {
        match kind {
            Kind::DeclareLocal | Kind::DeclareContext => {
                match self.random.percent(30) && !scope.defined.is_empty() {
                    true => vec![Item::place(self.unseen(scope))],
                    false => vec![Item::place(self.lvalue(scope))],
                }
            }
            Kind::StoreLocal | Kind::StoreContext => {
                let value = self.operand(scope);
                vec![Item::place(self.lvalue(scope)), Item::place(value)]
            }
            Kind::Destructure => {
                let value = self.operand(scope);
                self.pattern(scope, aux, value)
            }
            _ => {
                let (places, tags) = Instruction::item_rule(kind, aux);
                let mut items: Vec<Item> = (0..places).map(|_| Item::place(self.operand(scope))).collect();
                if !tags.is_empty() {
                    let more = if self.random.percent(1) { 12 } else { self.random.below(5) };
                    for _ in 0..more {
                        let tag = self.random.pick(tags);
                        let identifier = if tag == Tag::Hole { 0 } else { self.operand(scope) };
                        let key = self.key(scope, tag);
                        items.push(Item { tag, identifier, key });
                    }
                }
                items
            }
        }
    }

    fn key(&mut self, scope: &mut Scope, tag: Tag) -> u32 {
        match tag {
            Tag::NamedKey => self.property_name(),
            Tag::Attribute => {
                let text = self.random.pick(ATTRIBUTES);
                self.name(text)
            }
            Tag::ComputedKey => self.operand(scope),
            _ => 0,
        }
    }

    /// The items of a Destructure of this value.
    pub(super) fn pattern(&mut self, scope: &mut Scope, aux: u32, value: u32) -> Vec<Item> {
        let tags: &[Tag] = match aux {
            0 => &[Tag::Place, Tag::Place, Tag::Place, Tag::Spread, Tag::Hole],
            _ => &[Tag::NamedKey, Tag::NamedKey, Tag::NamedKey, Tag::Spread, Tag::ComputedKey, Tag::OtherKey],
        };
        let mut items = vec![];
        for _ in 0..if self.random.percent(3) { 13 } else { self.random.below(5) } {
            let tag = self.random.pick(tags);
            let identifier = match tag {
                Tag::Hole => 0,
                _ if !scope.defined.is_empty() && self.random.percent(10) => self.unseen(scope),
                _ => self.lvalue(scope),
            };
            let key = self.key(scope, tag);
            items.push(Item { tag, identifier, key });
        }
        items.push(Item::place(value));
        items
    }
}
