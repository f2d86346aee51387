//! Stand-in for the crate `enum_map`: the derive `Enum`, which expands to
//! nothing.

use proc_macro::TokenStream;

#[proc_macro_derive(Enum)]
pub fn derive_enum(_: TokenStream) -> TokenStream {
    TokenStream::new()
}
