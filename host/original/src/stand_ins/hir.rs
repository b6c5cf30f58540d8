//! The modules beside `react_compiler_hir/mod.rs`: an environment with what the pass asks of it, shapes, and types
//! that the HIR's declarations mention.

use crate::react_compiler_hir::{BlockId, HIR, HirFunction, IdentifierId, Place, ReactFunctionType};
use crate::stand_ins::oxc_allocator::{Allocator, Vec as ArenaVec};

pub mod environment {
    use super::environment_config::EnvironmentConfig;
    use super::object_shape::ShapeRegistry;
    use crate::react_compiler_hir::*;
    use crate::stand_ins::oxc_allocator::Allocator;
    use crate::stand_ins::oxc_diagnostics::OxcDiagnostic;
    use crate::stand_ins::oxc_index::IndexVec;
    use crate::stand_ins::oxc_span::Span;
    use crate::stand_ins::oxc_str::Ident;
    use crate::stand_ins::rustc_hash::FxHashMap;

    pub struct Environment<'a> {
        pub allocator: &'a Allocator,
        pub identifiers: IndexVec<IdentifierId, Identifier<'a>>,
        pub types: IndexVec<TypeId, Type<'a>>,
        pub functions: IndexVec<FunctionId, HirFunction<'a>>,
        pub shapes: ShapeRegistry<'a>,
        pub config: EnvironmentConfig,
        /// The types of globals, by the names that bindings carry.
        pub globals: FxHashMap<Ident<'a>, Type<'a>>,
        /// None stands for an image without one; the crate's own environment always has one.
        pub custom_hook_type: Option<Type<'a>>,
    }

    impl<'a> Environment<'a> {
        pub fn get_custom_hook_type_opt(&mut self) -> Option<Type<'a>> {
            self.custom_hook_type.clone()
        }

        pub fn get_global_declaration(
            &mut self,
            binding: &NonLocalBinding<'a>,
            _span: Option<Span>,
        ) -> Result<Option<Type<'a>>, OxcDiagnostic> {
            Ok(self.globals.get(&binding.name()).cloned())
        }
    }
}

pub mod environment_config {
    pub struct EnvironmentConfig {
        pub enable_treat_ref_like_identifiers_as_refs: bool,
        pub enable_treat_set_identifiers_as_state_setters: bool,
    }
}

pub mod object_shape {
    use crate::react_compiler_hir::Type;
    use crate::stand_ins::oxc_str::Ident;
    use crate::stand_ins::rustc_hash::FxHashMap;

    pub struct ObjectShape<'a> {
        pub properties: FxHashMap<&'a str, Type<'a>>,
    }

    pub type ShapeRegistry<'a> = FxHashMap<&'a str, ObjectShape<'a>>;

    macro_rules! built_in {
        ($($name:ident = $text:literal;)*) => {
            $(pub const $name: Ident<'static> = Ident::new($text);)*
        };
    }

    built_in! {
        BUILT_IN_PROPS_ID = "BuiltInProps";
        BUILT_IN_USE_REF_ID = "BuiltInUseRefId";
        BUILT_IN_SET_STATE_ID = "BuiltInSetState";
        BUILT_IN_OBJECT_ID = "BuiltInObject";
        BUILT_IN_ARRAY_ID = "BuiltInArray";
        BUILT_IN_FUNCTION_ID = "BuiltInFunction";
        BUILT_IN_JSX_ID = "BuiltInJsx";
        BUILT_IN_REF_VALUE_ID = "BuiltInRefValue";
        BUILT_IN_MIXED_READONLY_ID = "BuiltInMixedReadonly";
        // that only helpers of the HIR name
        BUILT_IN_USE_STATE_ID = "BuiltInUseState";
        BUILT_IN_USE_OPERATOR_ID = "BuiltInUseOperator";
        BUILT_IN_USE_EFFECT_HOOK_ID = "BuiltInUseEffectHook";
        BUILT_IN_USE_LAYOUT_EFFECT_HOOK_ID = "BuiltInUseLayoutEffectHook";
        BUILT_IN_USE_INSERTION_EFFECT_HOOK_ID = "BuiltInUseInsertionEffectHook";
        BUILT_IN_USE_EFFECT_EVENT_ID = "BuiltInUseEffectEvent";
        BUILT_IN_START_TRANSITION_ID = "BuiltInStartTransition";
        REANIMATED_SHARED_VALUE_ID = "ReanimatedSharedValueId";
    }

    /// Document 01's shapes 0 to 8, in its order.
    pub const NUMBERED: [Ident<'static>; 9] = [
        BUILT_IN_PROPS_ID,
        BUILT_IN_USE_REF_ID,
        BUILT_IN_SET_STATE_ID,
        BUILT_IN_OBJECT_ID,
        BUILT_IN_ARRAY_ID,
        BUILT_IN_FUNCTION_ID,
        BUILT_IN_JSX_ID,
        BUILT_IN_REF_VALUE_ID,
        BUILT_IN_MIXED_READONLY_ID,
    ];
}

pub mod type_config {
    #[derive(Debug, Clone, Copy, PartialEq, Eq)]
    pub enum ValueKind {
        Mutable,
    }

    #[derive(Debug, Clone, Copy, PartialEq, Eq)]
    pub enum ValueReason {
        Other,
    }
}

pub mod raw {
    pub enum RawTypeCategory {}
}

pub mod default_module_type_provider {}
pub mod dominator {}
pub mod globals {}
pub mod reactive {}
pub mod visitors {}

/// An empty function, which stands in the functions' place while one of them is looked at.
pub fn placeholder_function<'a>(_allocator: &'a Allocator) -> HirFunction<'a> {
    HirFunction {
        span: None,
        id: None,
        name_hint: None,
        fn_type: ReactFunctionType::Other,
        params: ArenaVec::from_vec(vec![]),
        returns: place(IdentifierId::from_usize(0)),
        context: ArenaVec::from_vec(vec![]),
        body: HIR { entry: BlockId::ENTRY, blocks: Default::default() },
        instructions: ArenaVec::from_vec(vec![]),
        generator: false,
        is_async: false,
        directives: ArenaVec::from_vec(vec![]),
        aliasing_effects: None,
    }
}

/// A use of an identifier.
pub fn place(identifier: IdentifierId) -> Place {
    Place { identifier, effect: crate::react_compiler_hir::Effect::Unknown, reactive: false, span: None }
}
