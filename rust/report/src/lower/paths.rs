//! Paths with their generic arguments.

use super::Lowering;
use hir_expr_store::hir::{
    AssociatedTypeBinding, ConstRef, GenericArg, GenericArgs, GenericArgsParentheses, ModPath,
    NormalPath, Path, PathKind, TypeRef,
};
use hir_expr_store::{Name, TypeRefId};

impl Lowering {
    fn generic_arg(&mut self, arg: &syn::GenericArgument, args: &mut GenericArgs) {
        match arg {
            syn::GenericArgument::Lifetime(lifetime) => {
                let id = self.lifetime(lifetime);
                args.args.push(GenericArg::Lifetime(id));
            }
            syn::GenericArgument::Type(ty) => {
                let id = self.ty(ty);
                args.args.push(GenericArg::Ty(id));
            }
            syn::GenericArgument::Const(expr) => {
                let expr = self.constant(|lowering| lowering.expr(expr));
                args.args.push(GenericArg::Const(ConstRef { expr }));
            }
            syn::GenericArgument::Binding(binding) => {
                let type_ref = Some(self.ty(&binding.ty));
                args.bindings.push(AssociatedTypeBinding {
                    name: name_of(&binding.ident),
                    args: None,
                    type_ref,
                    bounds: Vec::new(),
                });
            }
            syn::GenericArgument::Constraint(constraint) => {
                let bounds = self.bounds(constraint.bounds.iter());
                args.bindings.push(AssociatedTypeBinding {
                    name: name_of(&constraint.ident),
                    args: None,
                    type_ref: None,
                    bounds,
                });
            }
        }
    }

    /// `Fn(A, B) -> C`: one argument, a tuple, and a binding of `Output`.
    fn paren_args(&mut self, paren: &syn::ParenthesizedGenericArguments) -> GenericArgs {
        let inputs = paren.inputs.iter().map(|ty| self.ty(ty)).collect();
        let tuple = self.builder.alloc_type(TypeRef::Tuple(inputs));
        let output = self.return_type(&paren.output);
        GenericArgs {
            args: vec![GenericArg::Ty(tuple)],
            has_self_type: false,
            bindings: vec![AssociatedTypeBinding {
                name: Name::new("Output"),
                args: None,
                type_ref: Some(output),
                bounds: Vec::new(),
            }],
            parenthesized: GenericArgsParentheses::ParenSugar,
        }
    }

    pub(super) fn generic_args<'a>(
        &mut self,
        list: impl IntoIterator<Item = &'a syn::GenericArgument>,
    ) -> GenericArgs {
        let mut args = GenericArgs::default();
        for arg in list {
            self.generic_arg(arg, &mut args);
        }
        args
    }

    fn segment_args(&mut self, segment: &syn::PathSegment) -> Option<GenericArgs> {
        match &segment.arguments {
            syn::PathArguments::None => None,
            syn::PathArguments::AngleBracketed(angle) => Some(self.generic_args(&angle.args)),
            syn::PathArguments::Parenthesized(paren) => Some(self.paren_args(paren)),
        }
    }

    /// A path, whose `qself` is the `T` of `<T>::f`, or of `<T as Trait>::f`.
    pub(super) fn path(&mut self, qself: Option<&syn::QSelf>, path: &syn::Path) -> Path {
        let mut kind = if path.leading_colon.is_some() && qself.is_none() {
            PathKind::Abs
        } else {
            PathKind::Plain
        };
        let mut anchor = None;
        let mut in_trait = None;
        if let Some(qself) = qself {
            let ty = self.ty(&qself.ty);
            // `<T as Trait>::f` is `Trait::<T>::f`, with the type as the first argument of the trait.
            match qself.position.checked_sub(1) {
                Some(last) => in_trait = Some((last, ty)),
                None => anchor = Some(ty),
            }
        }
        let mut names = Vec::new();
        let mut places = Vec::new();
        for (at, segment) in path.segments.iter().enumerate() {
            if names.is_empty() && qself.is_none() {
                if let Some(other) = kind_of(kind, segment) {
                    kind = other;
                    continue;
                }
            }
            names.push(name_of(&segment.ident));
            let mut args = self.segment_args(segment);
            if let Some((_, ty)) = in_trait.filter(|(last, _)| *last == at) {
                args = Some(with_self(args.unwrap_or_default(), ty));
            }
            places.push(args);
        }
        Path::with(NormalPath {
            generic_args: places,
            type_anchor: anchor,
            mod_path: ModPath::from_segments(kind, names),
        })
    }
}

/// The arguments of a trait, behind the type that it is of.
fn with_self(mut args: GenericArgs, ty: TypeRefId) -> GenericArgs {
    args.args.insert(0, GenericArg::Ty(ty));
    args.has_self_type = true;
    args
}

/// The kind of a path that this segment makes of one of this kind, where it is no name.
fn kind_of(kind: PathKind, segment: &syn::PathSegment) -> Option<PathKind> {
    match (kind, segment.ident.to_string().as_str()) {
        (PathKind::Plain, "self") => Some(PathKind::SELF),
        (PathKind::Plain, "super") => Some(PathKind::Super(1)),
        (PathKind::Super(count), "super") => Some(PathKind::Super(count.saturating_add(1))),
        (PathKind::Plain, "crate") => Some(PathKind::Crate),
        _ => None,
    }
}

/// The name by which this path may mean a variable: that of one name, and `self`.
pub(super) fn local_name(written: &syn::ExprPath, path: &Path) -> Option<Name> {
    if written.qself.is_none() && written.path.is_ident("self") {
        return Some(Name::new("self"));
    }
    path.as_ident().cloned()
}

/// The name of an identifier, without the `r#` of a raw one.
pub(super) fn name_of(ident: &syn::Ident) -> Name {
    let text = ident.to_string();
    Name::new(text.strip_prefix("r#").unwrap_or(&text))
}
