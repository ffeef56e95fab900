//! Bindings, labels and lifetimes, as the words behind `bind`, `label` and `lifetime` have them; and hygiene.

use super::{word_tables, Line, Notation, Words};
use crate::hir::{Binding, BindingAnnotation, BindingProblems, Label, LifetimeRef};
use crate::name::HygieneId;

word_tables! {
    BindingProblems {
        BindingProblems::BoundMoreThanOnce => "BoundMoreThanOnce" = BindingProblems::BoundMoreThanOnce,
        BindingProblems::BoundInconsistently => "BoundInconsistently" = BindingProblems::BoundInconsistently,
        BindingProblems::NotBoundAcrossAll => "NotBoundAcrossAll" = BindingProblems::NotBoundAcrossAll,
    }
}

/// The number of an expansion, or `root`.
impl Notation for HygieneId {
    fn write(&self, line: &mut Line) {
        match self.as_expansion() {
            Some(number) => line.word(number),
            None => line.keyword("root"),
        }
    }

    fn read(words: &mut Words<'_>) -> Option<HygieneId> {
        if words.flag("root") {
            return Some(HygieneId::ROOT);
        }
        words.begin()?;
        Some(HygieneId::expansion(words.number()?))
    }
}

fn read_mode(words: &mut Words<'_>) -> BindingAnnotation {
    if words.flag("mut") {
        BindingAnnotation::Mutable
    } else if words.flag("ref") {
        BindingAnnotation::Ref
    } else if words.flag("refmut") {
        BindingAnnotation::RefMut
    } else {
        BindingAnnotation::Unannotated
    }
}

impl Notation for Binding {
    fn write(&self, line: &mut Line) {
        line.name(&self.name);
        match self.mode {
            BindingAnnotation::Unannotated => {}
            BindingAnnotation::Mutable => line.keyword("mut"),
            BindingAnnotation::Ref => line.keyword("ref"),
            BindingAnnotation::RefMut => line.keyword("refmut"),
        }
        if !self.hygiene.is_root() {
            self.hygiene.write(line);
        }
        if let Some(problem) = self.problems {
            problem.write(line);
        }
    }

    fn read(words: &mut Words<'_>) -> Option<Binding> {
        Some(Binding {
            name: words.next_name()?,
            mode: read_mode(words),
            hygiene: words.attempt(HygieneId::read).unwrap_or_default(),
            problems: words.attempt(BindingProblems::read),
        })
    }
}

impl Notation for Label {
    fn write(&self, line: &mut Line) {
        line.name(&self.name);
    }

    fn read(words: &mut Words<'_>) -> Option<Label> {
        Some(Label {
            name: words.next_name()?,
        })
    }
}

impl Notation for LifetimeRef {
    fn write(&self, line: &mut Line) {
        match self {
            LifetimeRef::Named(name) => {
                line.keyword("named");
                line.name(name);
            }
            LifetimeRef::Static => line.keyword("static"),
            LifetimeRef::Placeholder => line.keyword("placeholder"),
            LifetimeRef::Param(param) => {
                line.keyword("param");
                param.write(line);
            }
            LifetimeRef::Error => line.keyword("error"),
        }
    }

    fn read(words: &mut Words<'_>) -> Option<LifetimeRef> {
        match words.next_keyword()? {
            "named" => Some(LifetimeRef::Named(words.next_name()?)),
            "static" => Some(LifetimeRef::Static),
            "placeholder" => Some(LifetimeRef::Placeholder),
            "param" => Some(LifetimeRef::Param(Notation::read(words)?)),
            "error" => Some(LifetimeRef::Error),
            _ => None,
        }
    }
}
