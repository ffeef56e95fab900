//! The functions of a file that have a body, in its order.

use crate::span::{Place, Span};
use syn::visit::{self, Visit};

/// A function with a body.
pub struct Function<'a> {
    /// Its name, behind those of the modules and of the type that it is in.
    pub name: String,
    /// Where its name stands.
    pub place: Place,
    /// What is before its body.
    pub signature: &'a syn::Signature,
    /// Its body.
    pub block: &'a syn::Block,
}

struct Finder<'a> {
    around: Vec<String>,
    found: Vec<Function<'a>>,
}

impl<'a> Finder<'a> {
    fn push(&mut self, signature: &'a syn::Signature, block: &'a syn::Block) {
        let ident = signature.ident.to_string();
        let names = self.around.iter().chain([&ident]);
        self.found.push(Function {
            name: names.map(String::as_str).collect::<Vec<_>>().join("::"),
            place: signature.ident.span().start().into(),
            signature,
            block,
        });
    }

    fn within(&mut self, name: String, visit: impl FnOnce(&mut Finder<'a>)) {
        self.around.push(name);
        visit(self);
        self.around.pop();
    }
}

impl Function<'_> {
    /// From its first word to the end of its body.
    pub fn span(&self) -> Span {
        Span {
            start: Span::of(self.signature).start,
            end: Span::of(self.block).end,
        }
    }
}

/// The last name of a type that is a path; `_` for any other.
fn type_name(ty: &syn::Type) -> String {
    match ty {
        syn::Type::Path(path) => match path.path.segments.last() {
            Some(segment) => segment.ident.to_string(),
            None => String::from("_"),
        },
        syn::Type::Reference(reference) => type_name(&reference.elem),
        _ => String::from("_"),
    }
}

impl<'a> Visit<'a> for Finder<'a> {
    fn visit_item_fn(&mut self, item: &'a syn::ItemFn) {
        self.push(&item.sig, &item.block);
        self.within(item.sig.ident.to_string(), |finder| {
            visit::visit_item_fn(finder, item);
        });
    }

    fn visit_impl_item_method(&mut self, item: &'a syn::ImplItemMethod) {
        self.push(&item.sig, &item.block);
        self.within(item.sig.ident.to_string(), |finder| {
            visit::visit_impl_item_method(finder, item);
        });
    }

    fn visit_trait_item_method(&mut self, item: &'a syn::TraitItemMethod) {
        if let Some(block) = &item.default {
            self.push(&item.sig, block);
        }
        self.within(item.sig.ident.to_string(), |finder| {
            visit::visit_trait_item_method(finder, item);
        });
    }

    fn visit_item_impl(&mut self, item: &'a syn::ItemImpl) {
        self.within(type_name(&item.self_ty), |finder| {
            visit::visit_item_impl(finder, item);
        });
    }

    fn visit_item_trait(&mut self, item: &'a syn::ItemTrait) {
        self.within(item.ident.to_string(), |finder| {
            visit::visit_item_trait(finder, item);
        });
    }

    fn visit_item_mod(&mut self, item: &'a syn::ItemMod) {
        self.within(item.ident.to_string(), |finder| {
            visit::visit_item_mod(finder, item);
        });
    }
}

/// The functions of a file that have a body. What a macro writes isn't seen.
pub fn functions(file: &syn::File) -> Vec<Function<'_>> {
    let mut finder = Finder {
        around: Vec::new(),
        found: Vec::new(),
    };
    finder.visit_file(file);
    finder.found
}
