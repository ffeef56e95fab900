//! Macro calls: each is one node, and its identifiers are kept, since a variable may be used in it.

use super::Lowering;
use crate::span::Span;
use hir_expr_store::hir::{Expr, ModPath, Path, PathKind};
use hir_expr_store::{ExprId, Name};
use proc_macro2::{Literal, TokenStream, TokenTree};

/// Whether a character may stand in a name.
fn is_of_name(c: char) -> bool {
    c.is_alphanumeric() || c == '_'
}

/// The names that a text of a format has behind `{` or before `$`.
fn names_in_format(text: &str) -> Vec<&str> {
    let mut names = Vec::new();
    let mut rest = text;
    while let Some(start) = rest.find('{') {
        rest = &rest[start + 1..];
        if let Some(behind) = rest.strip_prefix('{') {
            rest = behind;
            continue;
        }
        let inside = &rest[..rest.find('}').unwrap_or(rest.len())];
        let mut parts = inside.split(|c| !is_of_name(c));
        names.extend(parts.next().filter(|name| !name.is_empty()));
        for (at, _) in inside.match_indices('$') {
            let from = inside[..at]
                .rfind(|c| !is_of_name(c))
                .map_or(0, |at| at + 1);
            names.push(&inside[from..at]);
        }
    }
    names
}

impl Lowering {
    fn keep(&mut self, name: &str, span: Span) {
        self.sources.in_macros.push((Name::new(name), span));
    }

    fn keep_names_of(&mut self, literal: &Literal) {
        let text = literal.to_string();
        if text.starts_with(['"', 'r']) {
            for name in names_in_format(&text) {
                self.keep(name, Span::of(literal));
            }
        }
    }

    /// Keeps the identifiers of these tokens.
    pub(super) fn keep_tokens(&mut self, tokens: TokenStream) {
        for token in tokens {
            match token {
                TokenTree::Ident(ident) => self.keep(&ident.to_string(), Span::of(&ident)),
                TokenTree::Group(group) => self.keep_tokens(group.stream()),
                TokenTree::Literal(literal) => self.keep_names_of(&literal),
                TokenTree::Punct(_) => {}
            }
        }
    }

    /// A macro call: a path of its name with `!` behind it, which no variable has.
    pub(super) fn macro_call(&mut self, call: &syn::Macro) -> ExprId {
        self.keep_tokens(call.tokens.clone());
        let mut names: Vec<Name> = call
            .path
            .segments
            .iter()
            .map(|segment| Name::new(segment.ident.to_string()))
            .collect();
        if let Some(last) = names.last_mut() {
            *last = Name::new(format!("{last}!"));
        }
        let path = ModPath::from_segments(PathKind::Plain, names);
        self.alloc(Expr::Path(Path::BarePath(path)))
    }
}

#[cfg(test)]
mod tests {
    use super::names_in_format;

    #[test]
    fn formats_have_names() {
        assert_eq!(
            names_in_format("a {b} {{c}} {d:?} {} {0} {e:>f$}"),
            ["b", "d", "0", "e", "f"]
        );
    }
}
