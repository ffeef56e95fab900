//! Patterns. A name that a pattern has in several alternatives is one binding.

use super::paths::name_of;
use super::Lowering;
use crate::span::Span;
use hir_expr_store::hir::{BindingAnnotation, Mutability, Pat, Path, RangeOp, RecordFieldPat};
use hir_expr_store::{BindingId, ExprId, Name, PatId};
use std::collections::HashMap;

/// The bindings of a pattern so far.
type Bindings = HashMap<Name, BindingId>;

/// Whether a name of a pattern is that of a constant or of a variant. Only the items around it say so: here its first letter does.
fn is_item(name: &Name) -> bool {
    name.as_str().starts_with(char::is_uppercase)
}

/// The name of a field: its identifier, or its number.
pub(super) fn member_name(member: &syn::Member) -> Name {
    match member {
        syn::Member::Named(ident) => name_of(ident),
        syn::Member::Unnamed(index) => Name::new(index.index.to_string()),
    }
}

/// Whether a pattern is `..`, or a name that is bound to what `..` stands for.
fn is_rest(pat: &syn::Pat) -> bool {
    match pat {
        syn::Pat::Rest(_) => true,
        syn::Pat::Ident(ident) => ident
            .subpat
            .as_ref()
            .is_some_and(|(_, pat)| matches!(**pat, syn::Pat::Rest(_))),
        _ => false,
    }
}

impl Lowering {
    /// A pattern that isn't part of another.
    pub(super) fn pat_top(&mut self, pat: &syn::Pat) -> PatId {
        self.pat(pat, &mut Bindings::new())
    }

    fn alloc_pat(&mut self, pat: Pat) -> PatId {
        self.builder.alloc_pat(pat)
    }

    /// A pattern of one name that lowering made.
    pub(super) fn bind(&mut self, name: &Name, mode: BindingAnnotation) -> PatId {
        let id = self.binding(name.as_str(), mode, None);
        self.alloc_pat(Pat::Bind { id, subpat: None })
    }

    fn unknown_pat(&mut self, span: Span) -> PatId {
        self.sources.unknown.push(span);
        self.alloc_pat(Pat::Missing)
    }

    fn ident(&mut self, ident: &syn::PatIdent, bindings: &mut Bindings) -> PatId {
        let name = name_of(&ident.ident);
        let is_plain =
            ident.by_ref.is_none() && ident.mutability.is_none() && ident.subpat.is_none();
        if is_plain && is_item(&name) {
            return self.alloc_pat(Pat::Path(Path::from_name(name)));
        }
        let span = Span::of(&ident.ident);
        let mode = BindingAnnotation::new(ident.mutability.is_some(), ident.by_ref.is_some());
        let id = match bindings.get(&name) {
            Some(id) => {
                let source = self
                    .sources
                    .bindings
                    .iter_mut()
                    .rev()
                    .find(|it| it.id == *id);
                if let Some(source) = source {
                    source.spans.push(span);
                }
                *id
            }
            None => self.binding(name.as_str(), mode, Some(span)),
        };
        bindings.insert(name, id);
        let subpat = ident
            .subpat
            .as_ref()
            .map(|(_, pat)| self.pat(pat, bindings));
        self.alloc_pat(Pat::Bind { id, subpat })
    }

    /// Members with at most one `..` among them: those that there are, and the place of `..`.
    fn members<'a>(
        &mut self,
        pats: impl Iterator<Item = &'a syn::Pat>,
        bindings: &mut Bindings,
    ) -> (Vec<PatId>, Option<u32>) {
        let mut members = Vec::new();
        let mut ellipsis = None;
        for pat in pats {
            if matches!(pat, syn::Pat::Rest(_)) && ellipsis.is_none() {
                ellipsis = u32::try_from(members.len()).ok();
            } else {
                members.push(self.pat(pat, bindings));
            }
        }
        (members, ellipsis)
    }

    fn slice(&mut self, slice: &syn::PatSlice, bindings: &mut Bindings) -> PatId {
        let mut prefix = Vec::new();
        let mut rest = None;
        let mut suffix = Vec::new();
        for pat in &slice.elems {
            let id = self.pat(pat, bindings);
            if rest.is_some() {
                suffix.push(id);
            } else if is_rest(pat) {
                rest = Some(id);
            } else {
                prefix.push(id);
            }
        }
        self.alloc_pat(Pat::Slice {
            prefix,
            slice: rest,
            suffix,
        })
    }

    fn record(&mut self, record: &syn::PatStruct, bindings: &mut Bindings) -> PatId {
        let path = self.path(None, &record.path);
        let mut args = Vec::new();
        for field in &record.fields {
            let pat = match &*field.pat {
                // `S { X }` binds the field, whatever its first letter is.
                syn::Pat::Ident(ident) if field.colon_token.is_none() => {
                    let start = Span::of(&*field.pat).start;
                    let name = Span::of(&ident.ident).start;
                    self.sources.short_fields.insert(name, start);
                    let mode =
                        BindingAnnotation::new(ident.mutability.is_some(), ident.by_ref.is_some());
                    self.shorthand(&ident.ident, mode, bindings)
                }
                pat => self.pat(pat, bindings),
            };
            args.push(RecordFieldPat {
                name: member_name(&field.member),
                pat,
            });
        }
        self.alloc_pat(Pat::Record {
            path,
            args,
            ellipsis: record.dot2_token.is_some(),
        })
    }

    /// The binding of a field that is written without a pattern.
    fn shorthand(
        &mut self,
        ident: &syn::Ident,
        mode: BindingAnnotation,
        bindings: &mut Bindings,
    ) -> PatId {
        let name = name_of(ident);
        let span = Span::of(ident);
        let known = bindings.get(&name).copied();
        let id = known.unwrap_or_else(|| self.binding(name.as_str(), mode, Some(span)));
        if known.is_some() {
            let source = self
                .sources
                .bindings
                .iter_mut()
                .rev()
                .find(|it| it.id == id);
            if let Some(source) = source {
                source.spans.push(span);
            }
        }
        bindings.insert(name, id);
        self.alloc_pat(Pat::Bind { id, subpat: None })
    }

    /// What a pattern has as an expression: a literal, or a path of a constant.
    fn pat_expr(&mut self, expr: &syn::Expr) -> Option<ExprId> {
        match expr {
            syn::Expr::Path(path) => Some(self.path_expr(path)),
            syn::Expr::Macro(call) => Some(self.macro_call(&call.mac)),
            _ => self.pat_lit(expr),
        }
    }

    fn range(&mut self, range: &syn::PatRange) -> PatId {
        let start = self.pat_expr(&range.lo);
        let end = self.pat_expr(&range.hi);
        let range_type = match range.limits {
            syn::RangeLimits::HalfOpen(_) => RangeOp::Exclusive,
            syn::RangeLimits::Closed(_) => RangeOp::Inclusive,
        };
        self.alloc_pat(Pat::Range {
            start,
            end,
            range_type,
        })
    }

    fn pat(&mut self, pat: &syn::Pat, bindings: &mut Bindings) -> PatId {
        let lowered = match pat {
            syn::Pat::Ident(ident) => return self.ident(ident, bindings),
            syn::Pat::Slice(slice) => return self.slice(slice, bindings),
            syn::Pat::Struct(record) => return self.record(record, bindings),
            syn::Pat::Range(range) => return self.range(range),
            syn::Pat::Type(typed) => return self.pat(&typed.pat, bindings),
            syn::Pat::Box(it) => Pat::Box {
                inner: self.pat(&it.pat, bindings),
            },
            syn::Pat::Lit(lit) => match self.pat_expr(&lit.expr) {
                Some(expr) => Pat::Lit(expr),
                None => return self.unknown_pat(Span::of(pat)),
            },
            syn::Pat::Macro(call) => {
                self.keep_tokens(call.mac.tokens.clone());
                Pat::Missing
            }
            syn::Pat::Or(it) => {
                Pat::Or(it.cases.iter().map(|pat| self.pat(pat, bindings)).collect())
            }
            syn::Pat::Path(it) => Pat::Path(self.path(it.qself.as_ref(), &it.path)),
            syn::Pat::Reference(it) => Pat::Ref {
                pat: self.pat(&it.pat, bindings),
                mutability: Mutability::from_mutable(it.mutability.is_some()),
            },
            syn::Pat::Rest(_) => Pat::Rest,
            syn::Pat::Wild(_) => Pat::Wild,
            syn::Pat::Tuple(tuple) => {
                // `(a)` is a pattern in parentheses.
                if tuple.elems.len() == 1
                    && !tuple.elems.trailing_punct()
                    && !is_rest(&tuple.elems[0])
                {
                    return self.pat(&tuple.elems[0], bindings);
                }
                let (args, ellipsis) = self.members(tuple.elems.iter(), bindings);
                Pat::Tuple { args, ellipsis }
            }
            syn::Pat::TupleStruct(it) => {
                let path = self.path(None, &it.path);
                let (args, ellipsis) = self.members(it.pat.elems.iter(), bindings);
                Pat::TupleStruct {
                    path,
                    args,
                    ellipsis,
                }
            }
            // What syn gives as tokens alone, and what later versions of it add.
            _ => return self.unknown_pat(Span::of(pat)),
        };
        self.alloc_pat(lowered)
    }
}
