//! Stands in for the message texts: `tr!` gives the key and its arguments, as `warn-msp-cross n=2`.

#[macro_export]
macro_rules! tr {
    ($key:expr $(, $name:ident = $value:expr)* $(,)?) => {{
        #[allow(unused_mut)]
        let mut text = String::from($key);
        $(text.push_str(&format!(" {}={}", stringify!($name), $value));)*
        text
    }};
}
