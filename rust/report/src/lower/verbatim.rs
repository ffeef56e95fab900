//! Expressions that syn gives as tokens, and that are known all the same.

use syn::parse::{Parse, ParseStream};

/// What the tokens are.
pub(super) enum Inner {
    /// `const {}`
    Const(syn::Block),
    /// `&raw const EXPR`, or `&raw mut EXPR`: whether it may be written, and the place.
    Raw(bool, Box<syn::Expr>),
}

impl Parse for Inner {
    fn parse(input: ParseStream<'_>) -> syn::Result<Inner> {
        input.call(syn::Attribute::parse_outer)?;
        if input.peek(syn::Token![const]) {
            input.parse::<syn::Token![const]>()?;
            return Ok(Inner::Const(input.parse()?));
        }
        input.parse::<syn::Token![&]>()?;
        let raw: syn::Ident = input.parse()?;
        if raw != "raw" {
            return Err(input.error("raw"));
        }
        let is_mutable = input.peek(syn::Token![mut]);
        if is_mutable {
            input.parse::<syn::Token![mut]>()?;
        } else {
            input.parse::<syn::Token![const]>()?;
        }
        Ok(Inner::Raw(is_mutable, Box::new(input.parse()?)))
    }
}
