// Stands in for the crate thiserror: `#[derive(Error)]` on an enum. The
// messages of the `#[error(...)]` lines are not made; no answer holds them.

extern crate proc_macro;
use proc_macro::TokenStream;

#[proc_macro_derive(Error, attributes(error))]
pub fn derive_error(item: TokenStream) -> TokenStream {
    let mut words = item.into_iter().map(|token| token.to_string());
    words.find(|word| word == "enum");
    let name = words.next().expect("an enum");
    format!(
        "impl std::fmt::Display for {name} {{
            fn fmt(&self, f: &mut std::fmt::Formatter<'_>) -> std::fmt::Result {{
                std::fmt::Debug::fmt(self, f)
            }}
        }}
        impl std::error::Error for {name} {{}}"
    )
    .parse()
    .unwrap()
}
