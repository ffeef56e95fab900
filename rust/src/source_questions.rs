//! The questions on where nodes come from.

use crate::hir::Pat;
use crate::ids::{BindingId, ExprId, LabelId, MacroCallId, PatId, TypeRefId};
use crate::notation::{Notation, Words};
use crate::query::{
    questions, read_ids, read_lines, read_opt_id, read_opt_value, read_value, read_words, Query,
};
use crate::source::{ExpressionStoreDiagnostics, Source};
use crate::store::{ExprOrPatId, ExpressionStore};

impl ExpressionStore {
    /// The variable that a pattern itself binds.
    pub fn bound_by(&self, pat: PatId) -> Option<BindingId> {
        match self.pats().get(pat) {
            Some(Pat::Bind { id, .. }) => Some(*id),
            _ => None,
        }
    }
}

fn read_expansions(text: &str) -> Option<Vec<(Source, MacroCallId)>> {
    read_words(text, |words: &mut Words<'_>| {
        let mut source = Words::new(words.next_part('=')?);
        let source = Source::read(&mut source)?;
        Some((source, words.id()?))
    })
}

questions! {
    { impl ExpressionStore }

    /// Where an expression or a pattern comes from.
    fn expr_or_pat_syntax(&self, id: ExprOrPatId) -> Option<Source> {
        Query::of("syntax", |line| id.write(line), read_opt_value)
    }

    /// Where an expression comes from.
    fn expr_syntax(&self, expr: ExprId) -> Option<Source> {
        Query::id("expr-syntax", expr, read_opt_value)
    }

    /// Where a pattern comes from.
    fn pat_syntax(&self, pat: PatId) -> Option<Source> {
        Query::id("pat-syntax", pat, read_opt_value)
    }

    /// Where a type comes from.
    fn type_syntax(&self, type_ref: TypeRefId) -> Option<Source> {
        Query::id("type-syntax", type_ref, read_opt_value)
    }

    /// Where a label comes from.
    fn label_syntax(&self, label: LabelId) -> Option<Source> {
        Query::id("label-syntax", label, read_opt_value)
    }

    /// Where the field comes from that has this expression as its value.
    fn field_syntax(&self, value: ExprId) -> Option<Source> {
        Query::id("field-syntax", value, read_opt_value)
    }

    /// Where the field comes from that has this pattern.
    fn pat_field_syntax(&self, pat: PatId) -> Option<Source> {
        Query::id("pat-field-syntax", pat, read_opt_value)
    }

    /// What the source of an expression became.
    fn node_expr(&self, source: Source) -> Option<ExprOrPatId> {
        Query::of("node-expr", |line| source.write(line), read_opt_value)
    }

    /// What the source of a pattern became.
    fn node_pat(&self, source: Source) -> Option<ExprOrPatId> {
        Query::of("node-pat", |line| source.write(line), read_opt_value)
    }

    /// What the source of a type became.
    fn node_type(&self, source: Source) -> Option<TypeRefId> {
        Query::of("node-type", |line| source.write(line), read_opt_id)
    }

    /// What the source of a label became.
    fn node_label(&self, source: Source) -> Option<LabelId> {
        Query::of("node-label", |line| source.write(line), read_opt_id)
    }

    /// What the source of a macro call in the place of an expression became.
    fn macro_expansion_expr(&self, source: Source) -> Option<ExprOrPatId> {
        Query::of("macro-expansion-expr", |line| source.write(line), read_opt_value)
    }

    /// What a macro call expanded to.
    fn node_macro_file(&self, source: Source) -> Option<MacroCallId> {
        Query::of("node-macro-file", |line| source.write(line), read_opt_id)
    }

    /// What a macro call expanded to.
    fn expansion(&self, source: Source) -> Option<MacroCallId> {
        Query::of("expansion-of", |line| source.write(line), read_opt_id)
    }

    /// The macro calls, each with what it expanded to, in the order of their sources.
    fn expansions(&self) -> Vec<(Source, MacroCallId)> {
        Query::new("expansions", read_expansions)
    }

    /// The patterns of a binding, in the order in which they were added.
    fn patterns_for_binding(&self, binding: BindingId) -> Vec<PatId> {
        Query::id("patterns-for", binding, read_ids)
    }

    /// What lowering found wrong, in the order in which it was added.
    fn diagnostics(&self) -> Vec<ExpressionStoreDiagnostics> {
        Query::new("diagnostics", |text| read_lines(text, read_value))
    }
}
