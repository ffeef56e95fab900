//! Items in a body: each is a statement without content, and its paths of one name are kept.

use super::paths::name_of;
use super::Lowering;
use crate::span::Span;
use hir_expr_store::Name;
use proc_macro2::{TokenStream, TokenTree};
use syn::visit::{self, Visit};

/// The paths of one name in an item, and the identifiers in its macro calls.
struct Finder {
    found: Vec<(Name, Span)>,
}

impl Finder {
    fn tokens(&mut self, tokens: TokenStream) {
        for token in tokens {
            match token {
                TokenTree::Ident(ident) => self.found.push((name_of(&ident), Span::of(&ident))),
                TokenTree::Group(group) => self.tokens(group.stream()),
                TokenTree::Literal(_) | TokenTree::Punct(_) => {}
            }
        }
    }
}

impl<'a> Visit<'a> for Finder {
    fn visit_path(&mut self, path: &'a syn::Path) {
        if let Some(ident) = path.get_ident() {
            self.found.push((name_of(ident), Span::of(ident)));
        }
        visit::visit_path(self, path);
    }

    fn visit_macro(&mut self, call: &'a syn::Macro) {
        self.tokens(call.tokens.clone());
    }
}

impl Lowering {
    /// Keeps the paths of one name in an item.
    pub(super) fn keep_paths_of(&mut self, item: &syn::Item) {
        let mut finder = Finder { found: Vec::new() };
        finder.visit_item(item);
        self.sources.in_items.extend(finder.found);
    }
}
