//! A few instructions that belong together, each aimed at a rule.

use super::*;

impl Writer<'_> {
    pub(super) fn idiom(&mut self, scope: &mut Scope) -> Vec<Instruction> {
        match self.random.below(25) {
            0..=3 => self.named_load_then_current(scope),
            4..=6 => self.named_load_then_call(scope),
            7 | 8 => self.method_of_a_global(scope),
            9 => self.union(scope),
            10 => self.functions_of_other_shapes(scope),
            11 => self.calls_of_one_function(scope),
            12 => self.pattern_of_a_global(scope),
            13 => self.phi_as_global(scope),
            14 => self.function_around_itself(scope),
            15 => self.chain(scope),
            16 => self.name_across_functions(scope),
            17..=19 => self.use_of_an_earlier_load(scope),
            20 => self.loop_through_variables(scope),
            21 => self.pattern_of_positions(scope),
            22 | 23 => self.jsx_with_refs(scope),
            _ => self.global_at_defined(scope),
        }
    }

    fn named(&mut self, list: &[&str]) -> u32 {
        let text = self.random.pick(list);
        let name = self.name(text);
        self.identifier_named(name)
    }

    fn load(&mut self, lvalue: u32, of_type: u32) -> Instruction {
        Instruction::new(Kind::LoadGlobal, lvalue, of_type, vec![])
    }

    /// A named load, perhaps another over it, then its "current" or another property.
    fn named_load_then_current(&mut self, scope: &mut Scope) -> Vec<Instruction> {
        let list = self.random.pick(&[REFS, REFS, NEAR_REFS]);
        let source = self.named(list);
        let loaded = self.identifier();
        // a value that is its own object shows which of the two comes first
        let value = if self.random.percent(15) { loaded } else { self.identifier() };
        let mut made = vec![];
        if self.random.percent(30) {
            let of_type = self.any_type(2);
            let known = self.random.pick(&[source, loaded, value]);
            made.push(self.load(known, of_type));
        }
        made.push(Instruction::new(Kind::LoadLocal, loaded, 0, vec![Item::place(source)]));
        if self.random.percent(25) {
            let other = self.operand(scope);
            made.push(Instruction::new(Kind::LoadLocal, loaded, 0, vec![Item::place(other)]));
        }
        let name = match self.random.below(10) {
            0 => self.property_name(),
            1 => {
                let text = self.random.pick(NEAR_CURRENT);
                self.name(text)
            }
            _ => self.name("current"),
        };
        made.push(match self.random.below(6) {
            0 => Instruction::new(
                Kind::PropertyStore,
                value,
                name,
                vec![Item::place(loaded), Item::place(source)],
            ),
            1 => {
                let key = Item { tag: Tag::NamedKey, identifier: value, key: name };
                let lvalue = self.identifier();
                Instruction::new(Kind::Destructure, lvalue, 1, vec![key, Item::place(loaded)])
            }
            2 => {
                Instruction::new(Kind::ComputedLoad, value, 0, vec![Item::place(loaded), Item::place(source)])
            }
            _ => Instruction::new(Kind::PropertyLoad, value, name, vec![Item::place(loaded)]),
        });
        scope.loaded.push(loaded);
        scope.defined.extend([source, loaded, value]);
        made
    }

    /// A named load, perhaps another over it, then a call of it.
    fn named_load_then_call(&mut self, scope: &mut Scope) -> Vec<Instruction> {
        let source = self.named(SETTERS);
        let (loaded, value) = (self.identifier(), self.identifier());
        let stored = self.identifier();
        let mut made = vec![match self.random.below(10) {
            0 => Instruction::new(Kind::LoadContext, loaded, 0, vec![Item::place(source)]),
            1 => Instruction::new(Kind::TypeCastExpression, loaded, 0, vec![Item::place(source)]),
            2 => {
                Instruction::new(Kind::StoreLocal, loaded, 0, vec![Item::place(source), Item::place(stored)])
            }
            _ => Instruction::new(Kind::LoadLocal, loaded, 0, vec![Item::place(source)]),
        }];
        if self.random.percent(40) {
            let other = match self.random.percent(50) {
                true => self.named(SETTERS),
                false => self.operand(scope),
            };
            made.push(Instruction::new(Kind::LoadLocal, loaded, 0, vec![Item::place(other)]));
        }
        let callee =
            if made[0].kind == Kind::StoreLocal || self.random.percent(10) { source } else { loaded };
        let kind = match self.random.below(8) {
            0 => Kind::NewExpression,
            1 => Kind::TaggedTemplateExpression,
            _ => Kind::CallExpression,
        };
        made.push(Instruction::new(kind, value, 0, vec![Item::place(callee)]));
        scope.loaded.push(loaded);
        scope.defined.extend([loaded, value]);
        made
    }

    /// A call or "current" of what was loaded before, perhaps in another block.
    fn use_of_an_earlier_load(&mut self, scope: &mut Scope) -> Vec<Instruction> {
        if scope.loaded.is_empty() {
            let list = self.random.pick(&[REFS, SETTERS]);
            let source = self.named(list);
            let loaded = self.identifier();
            scope.loaded.push(loaded);
            scope.defined.extend([source, loaded]);
            return vec![Instruction::new(Kind::LoadLocal, loaded, 0, vec![Item::place(source)])];
        }
        let at = self.random.below(scope.loaded.len() as u32) as usize;
        let loaded = scope.loaded.swap_remove(at);
        let value = self.identifier();
        scope.defined.push(value);
        let current = self.name("current");
        vec![match self.random.percent(50) {
            true => Instruction::new(Kind::CallExpression, value, 0, vec![Item::place(loaded)]),
            false => Instruction::new(Kind::PropertyLoad, value, current, vec![Item::place(loaded)]),
        }]
    }

    /// A value that leads to itself through other variables and a Phi: x := y, y := phi(v, _), v := phi(x, _).
    fn loop_through_variables(&mut self, scope: &mut Scope) -> Vec<Instruction> {
        let around: Vec<u32> = (0..self.random.range(1, 3)).map(|_| self.identifier()).collect();
        let mut made = vec![];
        for pair in around.windows(2) {
            made.push(Instruction::new(Kind::LoadLocal, pair[0], 0, vec![Item::place(pair[1])]));
        }
        let value = self.identifier();
        let (first, last) = (around[0], around[around.len() - 1]);
        for (at, to) in [(last, value), (value, first)] {
            let slot = *self.image.cell(Table::Identifiers, to, 0);
            let (var, other) = (self.var(slot), self.any_type(1));
            // a function around the variable is a cycle in the end
            let inner = match self.chance(self.rare / 5) {
                true => {
                    let shape = self.shape_number();
                    self.function_type(shape, false, var)
                }
                false => var,
            };
            let operands = if self.random.percent(50) { [inner, other] } else { [other, inner] };
            let of_type = self.phi_type(&operands);
            made.push(self.load(at, of_type));
        }
        scope.defined.extend([first, value]);
        made
    }

    /// An array pattern over the shape that has positions for names.
    fn pattern_of_positions(&mut self, scope: &mut Scope) -> Vec<Instruction> {
        let Some(shape) = self.positions else { return self.pattern_of_a_global(scope) };
        let (value, lvalue) = (self.identifier(), self.identifier());
        let of_type = self.object(shape);
        let many = if self.random.percent(20) { 12 } else { self.random.range(2, 5) };
        let mut items = vec![];
        for _ in 0..many {
            let tag = self.random.pick(&[Tag::Place, Tag::Place, Tag::Place, Tag::Hole, Tag::Spread]);
            let identifier = if tag == Tag::Hole { 0 } else { self.identifier() };
            items.push(Item { tag, identifier, key: 0 });
        }
        scope.defined.extend(items.iter().filter(|item| item.tag != Tag::Hole).map(|item| item.identifier));
        items.push(Item::place(value));
        scope.defined.push(value);
        vec![self.load(value, of_type), Instruction::new(Kind::Destructure, lvalue, 0, items)]
    }

    /// A property of a global's shape, called.
    fn method_of_a_global(&mut self, scope: &mut Scope) -> Vec<Instruction> {
        let [object, method, value] = [self.identifier(), self.identifier(), self.identifier()];
        let shape = self.shape_number();
        let of_type = match self.random.percent(70) {
            true => self.object(shape),
            false => {
                let (constructor, returns) = (self.random.percent(50), self.any_type(1));
                self.function_type(shape, constructor, returns)
            }
        };
        let name = self.property_name();
        let property = match self.random.below(8) {
            0 => Instruction::new(Kind::PropertyLoad, method, NONE, vec![Item::place(object)]),
            1 => {
                Instruction::new(Kind::ComputedLoad, method, 0, vec![Item::place(object), Item::place(value)])
            }
            _ => Instruction::new(Kind::PropertyLoad, method, name, vec![Item::place(object)]),
        };
        let call =
            Instruction::new(Kind::MethodCall, value, 0, vec![Item::place(object), Item::place(method)]);
        scope.defined.extend([object, method, value]);
        vec![self.load(object, of_type), property, call]
    }

    /// Two or three types of which a phi may have a union.
    fn union(&mut self, scope: &mut Scope) -> Vec<Instruction> {
        let mut types = vec![self.object(8)];
        for _ in 0..self.random.range(1, 2) {
            types.push(match self.random.below(6) {
                0..=2 => self.primitive(),
                3 => self.object(4),
                4 => self.object(8),
                _ => self.any_type(1),
            });
        }
        if self.random.percent(15) {
            // the same type twice, any kind of it
            let of_type = self.any_type(1);
            let again = *self.image.cell(Table::Types, of_type, 0);
            let other = if (1..=3).contains(&again) { self.add_type([again, 0, 0], 1) } else { of_type };
            types = vec![of_type, other];
        }
        self.random.shuffle(&mut types);
        let mut made = vec![];
        let mut joined = vec![];
        for of_type in types {
            joined.push(self.identifier());
            made.push(self.load(joined[joined.len() - 1], of_type));
        }
        scope.defined.extend(&joined);
        scope.joins.push(joined);
        made
    }

    /// Functions that differ in shape, or in being a constructor, only.
    fn functions_of_other_shapes(&mut self, scope: &mut Scope) -> Vec<Instruction> {
        let returns = self.any_type(1);
        let joined = vec![self.identifier(), self.identifier()];
        let mut made = vec![];
        for &one in &joined {
            let (shape, constructor) = (self.shape_number(), self.random.percent(40));
            let of_type = self.function_type(shape, constructor, returns);
            made.push(self.load(one, of_type));
        }
        scope.defined.extend(&joined);
        scope.joins.push(joined);
        made
    }

    /// A function that is called once or more.
    fn calls_of_one_function(&mut self, scope: &mut Scope) -> Vec<Instruction> {
        let callee = self.identifier();
        let returns = self.any_type(2);
        let (shape, constructor) = (self.shape_number(), self.random.percent(30));
        let of_type = self.function_type(shape, constructor, returns);
        let mut made = vec![self.load(callee, of_type)];
        for _ in 0..self.random.range(1, 3) {
            let value = self.identifier();
            let kind = self.random.pick(&[
                Kind::CallExpression,
                Kind::NewExpression,
                Kind::TaggedTemplateExpression,
            ]);
            made.push(Instruction::new(kind, value, 0, vec![Item::place(callee)]));
            scope.defined.push(value);
        }
        made
    }

    /// A pattern over a global's shape.
    fn pattern_of_a_global(&mut self, scope: &mut Scope) -> Vec<Instruction> {
        let value = self.identifier();
        let shape = self.shape_number();
        let of_type = self.object(shape);
        let mut made = vec![self.load(value, of_type)];
        let (aux, lvalue) = (self.random.below(2), self.identifier());
        let items = self.pattern(scope, aux, value);
        made.push(Instruction::new(Kind::Destructure, lvalue, aux, items));
        scope.defined.push(value);
        made
    }

    /// A Phi as a global's type, into a variable that may have a value.
    fn phi_as_global(&mut self, scope: &mut Scope) -> Vec<Instruction> {
        let operands: Vec<u32> = (0..self.random.range(1, 3)).map(|_| self.any_type(2)).collect();
        let of_type = self.phi_type(&operands);
        let lvalue = self.lvalue(scope);
        vec![self.load(lvalue, of_type)]
    }

    /// A phi's place, loaded or called into one of its own operands: the run has to look at itself.
    fn function_around_itself(&mut self, scope: &mut Scope) -> Vec<Instruction> {
        let Some(later) = scope.pending.pop() else { return self.chain(scope) };
        let from = self.operand(scope);
        let mut made = vec![];
        match self.random.below(if self.rare > 300 { 5 } else { 2 }) {
            0 | 1 => made.push(Instruction::new(Kind::LoadLocal, later, 0, vec![Item::place(from)])),
            2 => made.push(Instruction::new(Kind::CallExpression, later, 0, vec![Item::place(from)])),
            3 => {
                let inner = self.function(Some(scope));
                made.push(Instruction::new(Kind::FunctionExpression, later, inner, vec![]));
            }
            _ => {
                let slot = *self.image.cell(Table::Identifiers, from, 0);
                let var = self.var(slot);
                let shape = self.shape_number();
                let of_type = match self.random.percent(50) {
                    true => self.function_type(shape, false, var),
                    false => {
                        let other = self.any_type(1);
                        self.phi_type(&[var, other])
                    }
                };
                made.push(self.load(later, of_type));
            }
        }
        scope.defined.push(later);
        made
    }

    /// Variables stored into one another, then one of them gets a type.
    fn chain(&mut self, scope: &mut Scope) -> Vec<Instruction> {
        let mut made = vec![];
        let first = self.identifier();
        let mut last = first;
        for _ in 0..self.random.range(1, 3) {
            let (next, lvalue) = (self.identifier(), self.identifier());
            let kind = self.random.pick(&[Kind::StoreLocal, Kind::StoreLocal, Kind::StoreContext]);
            let aux = if kind == Kind::StoreContext { self.random.below(2) } else { 0 };
            made.push(Instruction::new(kind, lvalue, aux, vec![Item::place(next), Item::place(last)]));
            scope.defined.push(lvalue);
            last = next;
        }
        let of_type = self.any_type(2);
        let end = self.random.pick(&[first, last]);
        let at = self.random.below(made.len() as u32 + 1) as usize;
        made.insert(at, self.load(end, of_type));
        scope.defined.extend([first, last]);
        made
    }

    /// A name that is logged outside a function and used inside, or the other way round.
    fn name_across_functions(&mut self, scope: &mut Scope) -> Vec<Instruction> {
        if scope.depth >= 6 {
            return self.named_load_then_call(scope);
        }
        let calls = self.random.percent(50);
        let source = self.named(if calls { &["setX", "set"] } else { &["ref", "aRef"] });
        let (loaded, value) = (self.identifier(), self.identifier());
        let load = Instruction::new(Kind::LoadLocal, loaded, 0, vec![Item::place(source)]);
        let current = self.name("current");
        let used = match calls {
            true => Instruction::new(Kind::CallExpression, value, 0, vec![Item::place(loaded)]),
            false => Instruction::new(Kind::PropertyLoad, value, current, vec![Item::place(loaded)]),
        };
        let loads_inside = self.random.percent(50);
        let (inside, outside) = if loads_inside { (load, used) } else { (used, load) };
        let number = self.bodies.len() as u32;
        let mut body = Body::of(self.identifier(), vec![inside]);
        body.fn_type = self.random.pick(FnType::ALL);
        if self.random.percent(30) {
            body.blocks[0].returned = Some(value);
        }
        self.body_words += 9 + 7;
        self.bodies.push(Some(body));
        let kind = self.random.pick(&[Kind::FunctionExpression, Kind::ObjectMethod]);
        let names = Instruction::new(kind, self.identifier(), number, vec![]);
        scope.defined.extend([loaded, value]);
        if loads_inside {
            vec![names, outside]
        } else {
            vec![outside, names]
        }
    }

    /// A JSX expression with attributes, its lvalue perhaps one of them.
    fn jsx_with_refs(&mut self, scope: &mut Scope) -> Vec<Instruction> {
        let mut items = vec![];
        for _ in 0..self.random.range(1, 3) {
            let text = self.random.pick(ATTRIBUTES);
            let key = self.name(text);
            let identifier = if self.random.percent(80) { self.identifier() } else { self.operand(scope) };
            items.push(Item { tag: Tag::Attribute, identifier, key });
        }
        let attributes: Vec<u32> = items.iter().map(|item| item.identifier).collect();
        let lvalue = if self.random.percent(25) { self.random.pick(&attributes) } else { self.lvalue(scope) };
        scope.defined.extend(attributes);
        vec![Instruction::new(Kind::JsxExpression, lvalue, 0, items)]
    }

    /// A type for what may have one: bound variables meet other types.
    fn global_at_defined(&mut self, scope: &mut Scope) -> Vec<Instruction> {
        let at = self.operand(scope);
        let of_type = self.any_type(3);
        vec![self.load(at, of_type)]
    }
}
