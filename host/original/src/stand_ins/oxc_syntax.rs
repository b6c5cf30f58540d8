//! `oxc_syntax`: numbers as JavaScript prints them; only for messages.

pub mod number {
    pub trait ToJsString {
        fn to_js_string(&self) -> String;
    }

    impl ToJsString for f64 {
        fn to_js_string(&self) -> String {
            self.to_string()
        }
    }
}
