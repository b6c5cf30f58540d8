//! Functions, blocks and phis.

use super::*;

/// Words of an instruction.
fn words(instruction: &Instruction) -> u32 {
    4 + 3 * instruction.items.len() as u32
}

impl Writer<'_> {
    /// Writes a function and what is in it; gives its number.
    pub(super) fn function(&mut self, outer: Option<&mut Scope>) -> u32 {
        let number = self.bodies.len() as u32;
        self.bodies.push(None);
        let inner = outer.is_some();
        let mut scope = Scope::default();
        let mut context = vec![];
        // where an inner function stops: so many words have to be left
        let mut stop = 0;
        if let Some(outer) = outer {
            scope.defined = outer.defined.clone();
            scope.depth = outer.depth + 1;
            let left = self.left().max(0);
            stop = left - self.random.below(30 + left as u32 / 2).min(left as u32) as i64;
            for _ in 0..self.random.below(3) {
                context.push(match outer.defined.is_empty() || self.random.percent(15) {
                    true => self.identifier(),
                    false if self.random.percent(30) => self.unseen(outer),
                    false => self.random.pick(&outer.defined),
                });
            }
        } else {
            // the outermost function's own context isn't visited
            for _ in 0..self.random.below(2) {
                let identifier = if self.random.percent(50) { 0 } else { self.identifier() };
                context.push(identifier);
            }
        }
        let params = self.params(&mut scope);
        let returns = self.identifier();
        self.body_words += 5 + 2 * params.len() as u32 + context.len() as u32;
        let mut blocks = vec![];
        while self.left() > stop || (blocks.is_empty() && self.random.percent(97)) {
            blocks.push(self.block(&mut scope, stop));
            if inner && self.random.percent(20) {
                break;
            }
        }
        let fn_type = self.random.pick(&[FnType::Component, FnType::Component, FnType::Hook, FnType::Other]);
        self.bodies[number as usize] = Some(Body { fn_type, returns, params, context, blocks });
        number
    }

    fn params(&mut self, scope: &mut Scope) -> Vec<(bool, u32)> {
        let mut params = vec![];
        for _ in 0..self.random.pick(&[0, 1, 2, 2, 3, 4]) {
            let identifier = match self.random.below(20) {
                0 if !scope.defined.is_empty() => self.random.pick(&scope.defined),
                // identifier 0 stands in holes, which are no visits
                1..=4 => 0,
                _ => self.identifier(),
            };
            params.push((self.random.percent(15), identifier));
            if identifier != 0 && self.random.percent(85) {
                scope.defined.push(identifier);
            }
        }
        params
    }

    fn block(&mut self, scope: &mut Scope, stop: i64) -> Block {
        let mut block = Block::default();
        self.body_words += 4;
        for _ in 0..self.random.pick(&[0, 0, 0, 1, 1, 2]) + (scope.joins.len() > 1) as u32 {
            let phi = self.phi(scope);
            self.body_words += 2 + phi.1.len() as u32;
            block.phis.push(phi);
        }
        for _ in 0..self.random.below(10) {
            if self.left() <= stop {
                break;
            }
            let new = match self.random.percent(40) {
                true => self.idiom(scope),
                false => {
                    let kind = self.kind(scope.depth);
                    vec![self.instruction(scope, kind)]
                }
            };
            self.body_words += new.iter().map(words).sum::<u32>();
            block.instructions.extend(new);
        }
        if self.random.percent(35) {
            block.returned = Some(self.operand(scope));
        }
        block
    }

    fn phi(&mut self, scope: &mut Scope) -> (u32, Vec<u32>) {
        let place = self.lvalue(scope);
        if !scope.joins.is_empty() && self.random.percent(70) {
            let mut operands = scope.joins.pop().expect("one that is there");
            if self.random.percent(30) {
                let more = if self.random.percent(30) { place } else { self.random.pick(&operands) };
                let at = self.random.below(operands.len() as u32 + 1) as usize;
                operands.insert(at, more);
            }
            return (place, operands);
        }
        let empty = self.chance(self.rare / 100);
        let count = if empty { 0 } else { self.random.pick(&[1, 2, 2, 2, 3]) };
        let mut operands = vec![];
        for _ in 0..count {
            operands.push(match self.random.below(10) {
                0 => place,
                1 | 2 => {
                    let later = self.identifier();
                    scope.pending.push(later);
                    later
                }
                // a value that isn't visited here
                3 if !scope.defined.is_empty() => self.unseen(scope),
                _ => self.operand(scope),
            });
        }
        (place, operands)
    }
}
