//! Derives that take the attribute `dynamic` and write nothing.
use proc_macro::TokenStream;

#[proc_macro_derive(FromDynamic, attributes(dynamic))]
pub fn from_dynamic(_: TokenStream) -> TokenStream {
    TokenStream::new()
}

#[proc_macro_derive(ToDynamic, attributes(dynamic))]
pub fn to_dynamic(_: TokenStream) -> TokenStream {
    TokenStream::new()
}
