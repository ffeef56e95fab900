//! Types, as far as names go.

use super::paths::name_of;
use super::Lowering;
use hir_expr_store::hir::{
    ArrayType, ConstRef, ExternAbi, FnType, LifetimeRef, Mutability, PathId, RefType,
    TraitBoundModifier, TypeBound, TypeRef,
};
use hir_expr_store::{LifetimeRefId, Name, TypeRefId};

/// The names of the lifetimes behind `for`.
fn binder(lifetimes: &syn::BoundLifetimes) -> Vec<Name> {
    let names = lifetimes.lifetimes.iter();
    names
        .map(|def| Name::new(format!("'{}", def.lifetime.ident)))
        .collect()
}

fn abi(abi: Option<&syn::Abi>) -> ExternAbi {
    let Some(abi) = abi else {
        return ExternAbi::Rust;
    };
    match abi.name.as_ref().map(syn::LitStr::value).as_deref() {
        None | Some("C") => ExternAbi::C,
        Some("Rust") => ExternAbi::Rust,
        Some("C-unwind") => ExternAbi::CUnwind,
        Some("system") => ExternAbi::System,
        Some("system-unwind") => ExternAbi::SystemUnwind,
        Some(other) => ExternAbi::Named(String::from(other)),
    }
}

impl Lowering {
    pub(super) fn lifetime(&mut self, lifetime: &syn::Lifetime) -> LifetimeRefId {
        self.builder
            .alloc_lifetime(match lifetime.ident.to_string().as_str() {
                "static" => LifetimeRef::Static,
                "_" => LifetimeRef::Placeholder,
                name => LifetimeRef::Named(Name::new(format!("'{name}"))),
            })
    }

    fn trait_bound(&mut self, bound: &syn::TraitBound) -> TypeBound {
        let path = self.path(None, &bound.path);
        let id = PathId::from_type_ref_unchecked(self.builder.alloc_type(TypeRef::Path(path)));
        match (&bound.lifetimes, &bound.modifier) {
            (Some(lifetimes), _) => TypeBound::ForLifetime(binder(lifetimes), id),
            (None, syn::TraitBoundModifier::None) => TypeBound::Path(id, TraitBoundModifier::None),
            (None, syn::TraitBoundModifier::Maybe(_)) => {
                TypeBound::Path(id, TraitBoundModifier::Maybe)
            }
        }
    }

    pub(super) fn bounds<'a>(
        &mut self,
        bounds: impl Iterator<Item = &'a syn::TypeParamBound>,
    ) -> Vec<TypeBound> {
        bounds
            .map(|bound| match bound {
                syn::TypeParamBound::Trait(bound) => self.trait_bound(bound),
                syn::TypeParamBound::Lifetime(lifetime) => {
                    TypeBound::Lifetime(self.lifetime(lifetime))
                }
            })
            .collect()
    }

    /// The type behind `->`; `()` where there is none.
    pub(super) fn return_type(&mut self, output: &syn::ReturnType) -> TypeRefId {
        match output {
            syn::ReturnType::Default => self.builder.alloc_type(TypeRef::Tuple(Vec::new())),
            syn::ReturnType::Type(_, ty) => self.ty(ty),
        }
    }

    fn bare_fn(&mut self, function: &syn::TypeBareFn) -> FnType {
        let mut params = Vec::new();
        for input in &function.inputs {
            let name = input.name.as_ref().map(|(name, _)| name_of(name));
            params.push((name, self.ty(&input.ty)));
        }
        params.push((None, self.return_type(&function.output)));
        FnType {
            binder: function.lifetimes.as_ref().map(binder),
            params,
            is_varargs: function.variadic.is_some(),
            is_unsafe: function.unsafety.is_some(),
            abi: abi(function.abi.as_ref()),
        }
    }

    fn reference(&mut self, reference: &syn::TypeReference) -> TypeRef {
        let lifetime = reference.lifetime.as_ref().map(|it| self.lifetime(it));
        TypeRef::Reference(Box::new(RefType {
            ty: self.ty(&reference.elem),
            lifetime,
            mutability: Mutability::from_mutable(reference.mutability.is_some()),
        }))
    }

    fn array(&mut self, array: &syn::TypeArray) -> TypeRef {
        let ty = self.ty(&array.elem);
        let expr = self.constant(|lowering| lowering.expr(&array.len));
        TypeRef::Array(ArrayType {
            ty,
            len: ConstRef { expr },
        })
    }

    pub(super) fn ty(&mut self, ty: &syn::Type) -> TypeRefId {
        let lowered = match ty {
            syn::Type::Group(group) => return self.ty(&group.elem),
            syn::Type::Paren(paren) => return self.ty(&paren.elem),
            syn::Type::Array(array) => self.array(array),
            syn::Type::BareFn(function) => TypeRef::Fn(Box::new(self.bare_fn(function))),
            syn::Type::ImplTrait(it) => TypeRef::ImplTrait(self.bounds(it.bounds.iter())),
            syn::Type::TraitObject(it) => TypeRef::DynTrait(self.bounds(it.bounds.iter())),
            syn::Type::Infer(_) => TypeRef::Placeholder,
            syn::Type::Never(_) => TypeRef::Never,
            syn::Type::Path(path) => TypeRef::Path(self.path(path.qself.as_ref(), &path.path)),
            syn::Type::Ptr(pointer) => {
                let mutability = Mutability::from_mutable(pointer.mutability.is_some());
                TypeRef::RawPtr(self.ty(&pointer.elem), mutability)
            }
            syn::Type::Reference(reference) => self.reference(reference),
            syn::Type::Slice(slice) => TypeRef::Slice(self.ty(&slice.elem)),
            syn::Type::Tuple(tuple) => {
                TypeRef::Tuple(tuple.elems.iter().map(|ty| self.ty(ty)).collect())
            }
            syn::Type::Macro(call) => {
                self.keep_tokens(call.mac.tokens.clone());
                TypeRef::Error
            }
            // What syn gives as tokens alone, and what later versions of it add.
            _ => TypeRef::Error,
        };
        self.builder.alloc_type(lowered)
    }
}
