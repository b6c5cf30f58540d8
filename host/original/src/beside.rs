//! A child module of the published `infer_types.rs`: it may read what is private there.

use super::*;
use crate::looks::{self, TooMany};
use std::panic::{AssertUnwindSafe, catch_unwind, resume_unwind};

/// What `infer_types` leaves behind, and the bindings that it drops at its end.
pub struct Finished<'a> {
    /// None if the run was stopped.
    pub result: Option<Result<(), OxcDiagnostic>>,
    /// Slots and bindings, slots ascending.
    pub bindings: Vec<(TypeId, Type<'a>)>,
    /// A variable leads back to itself; no type was applied.
    pub cyclic: bool,
}

/// `infer_types`, but that the unifier is looked at: before types are applied, and afterwards. So many looks into maps
/// are allowed; a run that wants more is stopped.
pub fn infer_types_and_look<'a>(func: &mut HirFunction<'a>, env: &mut Environment<'a>, most: u64) -> Finished<'a> {
    let refs = env.config.enable_treat_ref_like_identifiers_as_refs;
    let setters = env.config.enable_treat_set_identifiers_as_state_setters;
    let mut unifier = Unifier::new(refs, env.get_custom_hook_type_opt(), setters);
    looks::allow(most);
    let result = stoppable(|| generate(func, env, &mut unifier));
    looks::allow(u64::MAX);
    let cyclic = leads_back(&unifier.substitutions);
    if matches!(result, Some(Ok(()))) && !cyclic {
        apply_function(func, &env.functions, &mut env.identifiers, &mut env.types, &unifier);
    }
    let mut bindings: Vec<_> = unifier.substitutions.into_iter().collect();
    bindings.sort_by_key(|binding| binding.0);
    Finished { result, bindings, cyclic }
}

/// None if too many looks stop it.
fn stoppable<T>(run: impl FnOnce() -> T) -> Option<T> {
    match catch_unwind(AssertUnwindSafe(run)) {
        Ok(result) => Some(result),
        Err(panic) if panic.is::<TooMany>() => None,
        Err(panic) => resume_unwind(panic),
    }
}

/// Whether a variable leads back to itself. A visit is left when all that it leads to has been.
fn leads_back(substitutions: &FxHashMap<TypeId, Type>) -> bool {
    #[derive(Clone, Copy, PartialEq)]
    enum Visit {
        Open,
        Left,
    }
    let mut visits: FxHashMap<TypeId, Visit> = FxHashMap::default();
    for &start in substitutions.keys() {
        let mut pending = vec![(start, false)];
        while let Some((slot, leave)) = pending.pop() {
            if leave {
                visits.insert(slot, Visit::Left);
                continue;
            }
            match visits.get(&slot) {
                Some(Visit::Open) => return true,
                Some(Visit::Left) => continue,
                None => {}
            }
            visits.insert(slot, Visit::Open);
            pending.push((slot, true));
            if let Some(bound) = substitutions.get(&slot) {
                // an open one among these is found as soon as it is popped
                pending.extend(variables(bound).into_iter().map(|variable| (variable, false)));
            }
        }
    }
    false
}

/// The slots of the variables written in a type.
fn variables(ty: &Type) -> Vec<TypeId> {
    let (mut found, mut pending) = (vec![], vec![ty]);
    while let Some(ty) = pending.pop() {
        match ty {
            Type::Var { id } => found.push(*id),
            Type::Phi { operands } => pending.extend(operands),
            Type::Function { return_type, .. } => pending.push(return_type),
            _ => {}
        }
    }
    found
}
