//! `oxc_ast`: the operators, and types of the source that the pass carries without a look.

pub mod ast {
    pub use crate::stand_ins::oxc_span::Span;
    use std::marker::PhantomData;

    #[derive(Debug, Clone, Copy, PartialEq, Eq)]
    pub enum BinaryOperator {
        Equality,
        Inequality,
        StrictEquality,
        StrictInequality,
        LessThan,
        LessEqualThan,
        GreaterThan,
        GreaterEqualThan,
        Addition,
        Subtraction,
        Multiplication,
        Division,
        Remainder,
        Exponential,
        ShiftLeft,
        ShiftRight,
        ShiftRightZeroFill,
        BitwiseOR,
        BitwiseXOR,
        BitwiseAnd,
        In,
        Instanceof,
    }

    #[derive(Debug, Clone, Copy, PartialEq, Eq)]
    pub enum LogicalOperator {
        Or,
        And,
        Coalesce,
    }

    #[derive(Debug, Clone, Copy, PartialEq, Eq)]
    pub enum UpdateOperator {
        Increment,
        Decrement,
    }

    #[derive(Debug)]
    pub struct TSType<'a>(PhantomData<&'a ()>);

    impl TSType<'_> {
        pub const ANY: TSType<'static> = TSType(PhantomData);
    }
}
