//! Stands in for the crate `thiserror`, which was not supplied. The derive accepts `#[error(..)]`
//! and adds nothing: the harness never prints an error of the published Rust.

use proc_macro::TokenStream;

#[proc_macro_derive(Error, attributes(error))]
pub fn error(_item: TokenStream) -> TokenStream {
    TokenStream::new()
}
