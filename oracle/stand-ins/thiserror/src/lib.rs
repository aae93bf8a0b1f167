//! A stand-in for the crate `thiserror`: a derive for the one enum of wkt's
//! error.rs, whatever the item it is given. It can't influence reading: that enum
//! is what the Rust's *writer* answers; the reader answers `&'static str`.

use proc_macro::TokenStream;

const IMPLEMENTATIONS: &str = r#"
    impl std::fmt::Display for Error {
        fn fmt(&self, out: &mut std::fmt::Formatter) -> std::fmt::Result {
            out.write_str("well-known text could not be written")
        }
    }

    impl std::error::Error for Error {}

    impl From<std::fmt::Error> for Error {
        fn from(error: std::fmt::Error) -> Self {
            Error::FmtError(error)
        }
    }
"#;

#[proc_macro_derive(Error, attributes(error, from))]
pub fn derive_error(_item: TokenStream) -> TokenStream {
    IMPLEMENTATIONS
        .parse()
        .expect("the implementations are well-formed Rust")
}
