//! Blocks and their statements.

use super::Lowering;
use hir_expr_store::hir::{Expr, Item, Statement, Unsafe};
use hir_expr_store::{BlockId, ExprId, LabelId, MacroDefId, PatId, TypeRefId};
use syn::parse::{Parse, ParseStream};

/// `let PAT: TYPE = EXPR else BLOCK`, which syn gives as tokens.
struct LetElse {
    pat: syn::Pat,
    ty: Option<syn::Type>,
    init: syn::Expr,
    diverge: syn::Block,
}

impl Parse for LetElse {
    fn parse(input: ParseStream<'_>) -> syn::Result<LetElse> {
        input.call(syn::Attribute::parse_outer)?;
        input.parse::<syn::Token![let]>()?;
        let pat = parse_alternatives(input)?;
        let ty = if input.peek(syn::Token![:]) {
            input.parse::<syn::Token![:]>()?;
            Some(input.parse()?)
        } else {
            None
        };
        input.parse::<syn::Token![=]>()?;
        let init = input.parse()?;
        input.parse::<syn::Token![else]>()?;
        let diverge = input.parse()?;
        let _: Option<syn::Token![;]> = input.parse()?;
        Ok(LetElse {
            pat,
            ty,
            init,
            diverge,
        })
    }
}

/// A pattern, perhaps of several alternatives.
fn parse_alternatives(input: ParseStream<'_>) -> syn::Result<syn::Pat> {
    let leading_vert: Option<syn::Token![|]> = input.parse()?;
    let first: syn::Pat = input.parse()?;
    if leading_vert.is_none() && !input.peek(syn::Token![|]) {
        return Ok(first);
    }
    let mut cases = syn::punctuated::Punctuated::new();
    cases.push_value(first);
    while input.peek(syn::Token![|]) {
        cases.push_punct(input.parse()?);
        cases.push_value(input.parse()?);
    }
    Ok(syn::Pat::Or(syn::PatOr {
        attrs: Vec::new(),
        leading_vert,
        cases,
    }))
}

impl Lowering {
    /// A pattern, and the type behind it, where one is written.
    pub(super) fn typed_pat(&mut self, pat: &syn::Pat) -> (PatId, Option<TypeRefId>) {
        match pat {
            syn::Pat::Type(typed) => {
                let ty = self.ty(&typed.ty);
                (self.pat_top(&typed.pat), Some(ty))
            }
            pat => (self.pat_top(pat), None),
        }
    }

    fn local(&mut self, local: &syn::Local) -> Statement {
        let (pat, type_ref) = self.typed_pat(&local.pat);
        let initializer = local.init.as_ref().map(|(_, init)| self.expr(init));
        Statement::Let {
            pat,
            type_ref,
            initializer,
            else_branch: None,
        }
    }

    fn let_else(&mut self, it: &LetElse) -> Statement {
        let pat = self.pat_top(&it.pat);
        let type_ref = it.ty.as_ref().map(|ty| self.ty(ty));
        let initializer = Some(self.expr(&it.init));
        let else_branch = Some(self.block(&it.diverge, None));
        Statement::Let {
            pat,
            type_ref,
            initializer,
            else_branch,
        }
    }

    fn item(&mut self, item: &syn::Item) -> Statement {
        match item {
            syn::Item::Macro(it) if it.ident.is_some() => {
                let id = MacroDefId::from_raw(self.macro_defs);
                self.macro_defs += 1;
                self.keep_tokens(it.mac.tokens.clone());
                Statement::Item(Item::MacroDef(id))
            }
            syn::Item::Macro(it) => {
                let expr = self.macro_call(&it.mac);
                Statement::Expr {
                    expr,
                    has_semi: true,
                }
            }
            item => {
                self.keep_paths_of(item);
                Statement::Item(Item::Other)
            }
        }
    }

    fn statement(&mut self, statement: &syn::Stmt) -> Option<Statement> {
        Some(match statement {
            syn::Stmt::Local(local) => self.local(local),
            syn::Stmt::Item(item) => self.item(item),
            syn::Stmt::Expr(syn::Expr::Verbatim(tokens))
            | syn::Stmt::Semi(syn::Expr::Verbatim(tokens), _)
                if tokens.is_empty() =>
            {
                return None
            }
            syn::Stmt::Expr(expr) => self.expr_or_let(expr, false),
            syn::Stmt::Semi(expr, _) => self.expr_or_let(expr, true),
        })
    }

    fn expr_or_let(&mut self, expr: &syn::Expr, has_semi: bool) -> Statement {
        if let syn::Expr::Verbatim(tokens) = expr {
            if let Ok(let_else) = syn::parse2::<LetElse>(tokens.clone()) {
                return self.let_else(&let_else);
            }
        }
        Statement::Expr {
            expr: self.expr(expr),
            has_semi,
        }
    }

    /// A block, with the label that is written before it.
    pub(super) fn block(&mut self, block: &syn::Block, label: Option<LabelId>) -> ExprId {
        self.block_of(block, label, Unsafe::No)
    }

    /// The same, perhaps behind `unsafe`.
    pub(super) fn block_of(
        &mut self,
        block: &syn::Block,
        label: Option<LabelId>,
        unsafe_: Unsafe,
    ) -> ExprId {
        let has_items = block.stmts.iter().any(is_item);
        let id = has_items.then(|| {
            let id = BlockId::from_raw(self.blocks);
            self.blocks += 1;
            self.builder.add_block_scope(id);
            id
        });
        let (tail, front) = match block.stmts.split_last() {
            Some((syn::Stmt::Expr(tail), front)) if !is_let(tail) => (Some(tail), front),
            _ => (None, block.stmts.as_slice()),
        };
        let mut statements = Vec::new();
        for statement in front {
            statements.extend(self.statement(statement));
        }
        let tail = tail.map(|tail| self.expr(tail));
        self.alloc(Expr::Block {
            id,
            statements,
            tail,
            label,
            unsafe_,
        })
    }
}

/// Whether a statement is an item of its own, and no macro call.
fn is_item(statement: &syn::Stmt) -> bool {
    match statement {
        syn::Stmt::Item(syn::Item::Macro(it)) => it.ident.is_some(),
        syn::Stmt::Item(_) => true,
        syn::Stmt::Local(_) | syn::Stmt::Expr(_) | syn::Stmt::Semi(..) => false,
    }
}

/// Whether an expression is a `let` with `else`.
fn is_let(expr: &syn::Expr) -> bool {
    match expr {
        syn::Expr::Verbatim(tokens) => syn::parse2::<LetElse>(tokens.clone()).is_ok(),
        _ => false,
    }
}
