//! `oxc_diagnostics`, and the crate's own `diagnostics`: an error is its sentence.

#[derive(Debug)]
pub struct OxcDiagnostic(Box<&'static str>);

impl OxcDiagnostic {
    pub fn message(&self) -> &'static str {
        *self.0
    }
}

pub enum ErrorCategory {
    Invariant,
}

impl ErrorCategory {
    pub fn diagnostic(self, message: &'static str) -> OxcDiagnostic {
        OxcDiagnostic(Box::new(message))
    }
}
