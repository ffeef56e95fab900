//! Expressions, as the words behind `expr` have them.

use super::literal::read_form;
use super::{Line, Notation, Words};
use crate::hir::{
    Array, CaptureBy, ClosureKind, CoroutineKind, CoroutineSource, Expr, Item, LoopSource,
    MatchArm, Movability, Mutability, OffsetOf, Rawness, RecordLitField, RecordSpread, Statement,
    Unsafe,
};
use crate::ids::TypeRefId;

impl Notation for Statement {
    fn write(&self, line: &mut Line) {
        match self {
            Statement::Let {
                pat,
                type_ref,
                initializer,
                else_branch,
            } => {
                line.keyword("let:");
                line.join_id(*pat);
                line.join(':');
                line.join_opt_id(*type_ref);
                line.join(':');
                line.join_opt_id(*initializer);
                line.join(':');
                line.join_opt_id(*else_branch);
            }
            Statement::Expr { expr, has_semi } => {
                line.word(if *has_semi { "semi:" } else { "expr:" });
                line.join_id(*expr);
            }
            Statement::Item(Item::MacroDef(id)) => {
                line.keyword("macro:");
                line.join_id(*id);
            }
            Statement::Item(Item::Other) => line.keyword("item"),
        }
    }

    fn read(words: &mut Words<'_>) -> Option<Statement> {
        Some(match words.next_keyword()? {
            "let" => Statement::Let {
                pat: words.part_id()?,
                type_ref: words.part_opt_id()?,
                initializer: words.part_opt_id()?,
                else_branch: words.part_opt_id()?,
            },
            "semi" => Statement::Expr {
                expr: words.part_id()?,
                has_semi: true,
            },
            "expr" => Statement::Expr {
                expr: words.part_id()?,
                has_semi: false,
            },
            "macro" => Statement::Item(Item::MacroDef(words.part_id()?)),
            "item" => Statement::Item(Item::Other),
            _ => return None,
        })
    }
}

impl Notation for MatchArm {
    fn write(&self, line: &mut Line) {
        line.id(self.pat);
        line.join(':');
        line.join_opt_id(self.guard);
        line.join(':');
        line.join_id(self.expr);
    }

    fn read(words: &mut Words<'_>) -> Option<MatchArm> {
        Some(MatchArm {
            pat: words.next_id()?,
            guard: words.part_opt_id()?,
            expr: words.part_id()?,
        })
    }
}

fn coroutine_kind(kind: CoroutineKind) -> &'static str {
    match kind {
        CoroutineKind::Async => "async",
        CoroutineKind::Gen => "gen",
        CoroutineKind::AsyncGen => "async-gen",
    }
}

/// The word at the end of a closure's line; none for a closure that isn't a coroutine.
fn write_closure_kind(kind: ClosureKind, line: &mut Line) {
    match kind {
        ClosureKind::Closure => {}
        ClosureKind::OldCoroutine(Movability::Static) => line.keyword("static"),
        ClosureKind::OldCoroutine(Movability::Movable) => line.keyword("movable"),
        ClosureKind::CoroutineClosure(kind) => line.word(coroutine_kind(kind)),
        ClosureKind::Coroutine { kind, source } => {
            line.word(coroutine_kind(kind));
            line.join(match source {
                CoroutineSource::Block => ":block",
                CoroutineSource::Closure => ":closure",
                CoroutineSource::Fn => ":fn",
            });
        }
    }
}

/// A coroutine, where its source stands behind a colon; else a closure that makes coroutines.
fn read_coroutine(words: &mut Words<'_>, kind: CoroutineKind) -> Option<ClosureKind> {
    if !words.eat(":") {
        return Some(ClosureKind::CoroutineClosure(kind));
    }
    let source = match words.keyword() {
        "block" => CoroutineSource::Block,
        "closure" => CoroutineSource::Closure,
        "fn" => CoroutineSource::Fn,
        _ => return None,
    };
    Some(ClosureKind::Coroutine { kind, source })
}

fn read_closure_kind(words: &mut Words<'_>) -> Option<ClosureKind> {
    if words.is_end() {
        return Some(ClosureKind::Closure);
    }
    match words.next_keyword()? {
        "static" => Some(ClosureKind::OldCoroutine(Movability::Static)),
        "movable" => Some(ClosureKind::OldCoroutine(Movability::Movable)),
        "async" => read_coroutine(words, CoroutineKind::Async),
        "gen" => read_coroutine(words, CoroutineKind::Gen),
        "async-gen" => read_coroutine(words, CoroutineKind::AsyncGen),
        _ => None,
    }
}

/// The types of a closure's parameters; left out where each parameter has a place, and no type.
fn write_arg_types(types: &[Option<TypeRefId>], arg_count: usize, line: &mut Line) {
    if types.len() != arg_count || types.iter().any(Option::is_some) {
        line.keyword("types:");
        line.joined(",", types, |line, ty| line.join_opt_id(*ty));
    }
}

fn read_arg_types(words: &mut Words<'_>, arg_count: usize) -> Option<Vec<Option<TypeRefId>>> {
    if !words.prefix("types:") {
        return Some(vec![None; arg_count]);
    }
    if words.is_word_end() {
        return Some(Vec::new());
    }
    words.joined(",", Words::opt_id)
}

fn read_closure(words: &mut Words<'_>) -> Option<Expr> {
    let body = words.next_id()?;
    let args: Vec<_> = words.next_ids()?;
    Some(Expr::Closure {
        arg_types: read_arg_types(words, args.len())?,
        args,
        ret_type: words.prefixed_id("ret:")?,
        body,
        capture_by: if words.flag("move") {
            CaptureBy::Value
        } else {
            CaptureBy::Ref
        },
        closure_kind: read_closure_kind(words)?,
    })
}

fn read_block(words: &mut Words<'_>) -> Option<Expr> {
    Some(Expr::Block {
        id: words.next_opt_id()?,
        tail: words.next_opt_id()?,
        label: words.prefixed_id("label:")?,
        unsafe_: if words.flag("unsafe") {
            Unsafe::Yes
        } else {
            Unsafe::No
        },
        statements: read_each(words)?,
    })
}

/// Each of these, to the line's end.
fn read_each<T: Notation>(words: &mut Words<'_>) -> Option<Vec<T>> {
    let mut items = Vec::new();
    while !words.is_end() {
        items.push(T::read(words)?);
    }
    Some(items)
}

fn read_loop(words: &mut Words<'_>) -> Option<Expr> {
    Some(Expr::Loop {
        body: words.next_id()?,
        label: words.prefixed_id("label:")?,
        source: if words.flag("while") {
            LoopSource::While
        } else if words.flag("for") {
            LoopSource::ForLoop
        } else {
            LoopSource::Loop
        },
    })
}

fn read_field(words: &mut Words<'_>) -> Option<RecordLitField> {
    Some(RecordLitField {
        name: words.name()?,
        expr: words.part_id()?,
    })
}

fn read_spread(words: &mut Words<'_>) -> Option<RecordSpread> {
    if !words.prefix("..") {
        return Some(RecordSpread::None);
    }
    if words.is_word_end() {
        return Some(RecordSpread::FieldDefaults);
    }
    Some(RecordSpread::Expr(words.id()?))
}

fn read_method(words: &mut Words<'_>) -> Option<Expr> {
    Some(Expr::MethodCall {
        receiver: words.next_id()?,
        method_name: words.next_name()?,
        args: words.next_ids()?,
        generic_args: if words.is_end() {
            None
        } else {
            words.begin()?;
            Some(Box::new(Notation::read(words)?))
        },
    })
}

fn read_names(words: &mut Words<'_>) -> Option<OffsetOf> {
    let container = words.next_id()?;
    words.begin()?;
    let fields = words.joined_or_none(",", Words::name)?;
    Some(OffsetOf { container, fields })
}

/// The expressions that go elsewhere.
fn write_jump(word: &str, expr: Option<crate::ids::ExprId>, line: &mut Line) {
    line.word(word);
    line.opt_id(expr);
}

impl Notation for Expr {
    #[allow(clippy::too_many_lines)] // One arm a form.
    fn write(&self, line: &mut Line) {
        match self {
            Expr::Missing => line.keyword("missing"),
            Expr::Underscore => line.keyword("underscore"),
            Expr::IncludeBytes => line.keyword("include-bytes"),
            Expr::Path(path) => {
                line.keyword("path");
                path.write(line);
            }
            Expr::Literal(literal) => literal.write(line),
            Expr::Array(Array::ElementList { elements }) => {
                line.keyword("array");
                line.ids(elements);
            }
            Expr::Array(Array::Repeat {
                initializer,
                repeat,
            }) => {
                line.keyword("repeat");
                line.id(*initializer);
                line.id(*repeat);
            }
            Expr::OffsetOf(OffsetOf { container, fields }) => {
                line.keyword("offset-of");
                line.id(*container);
                line.begin();
                line.join_names(fields);
            }
            Expr::Const(expr) => {
                line.keyword("const");
                line.id(*expr);
            }
            Expr::If {
                condition,
                then_branch,
                else_branch,
            } => {
                line.keyword("if");
                line.id(*condition);
                line.id(*then_branch);
                line.opt_id(*else_branch);
            }
            Expr::Let { pat, expr } => {
                line.keyword("let");
                line.id(*pat);
                line.id(*expr);
            }
            Expr::Block {
                id,
                statements,
                tail,
                label,
                unsafe_,
            } => {
                line.keyword("block");
                line.opt_id(*id);
                line.opt_id(*tail);
                line.prefixed_id("label:", *label);
                line.flag(*unsafe_ == Unsafe::Yes, "unsafe");
                for statement in statements {
                    statement.write(line);
                }
            }
            Expr::Loop {
                body,
                label,
                source,
            } => {
                line.keyword("loop");
                line.id(*body);
                line.prefixed_id("label:", *label);
                match source {
                    LoopSource::Loop => {}
                    LoopSource::While => line.keyword("while"),
                    LoopSource::ForLoop => line.keyword("for"),
                }
            }
            Expr::Call { callee, args } => {
                line.keyword("call");
                line.id(*callee);
                line.ids(args);
            }
            Expr::MethodCall {
                receiver,
                method_name,
                args,
                generic_args,
            } => {
                line.keyword("method");
                line.id(*receiver);
                line.name(method_name);
                line.ids(args);
                if let Some(generic_args) = generic_args {
                    line.begin();
                    generic_args.write(line);
                }
            }
            Expr::Match { expr, arms } => {
                line.keyword("match");
                line.id(*expr);
                for arm in arms {
                    arm.write(line);
                }
            }
            Expr::Continue { label } => {
                line.keyword("continue");
                line.prefixed_id("label:", *label);
            }
            Expr::Break { expr, label } => {
                write_jump("break", *expr, line);
                line.prefixed_id("label:", *label);
            }
            Expr::Return { expr } => write_jump("return", *expr, line),
            Expr::Yield { expr } => write_jump("yield", *expr, line),
            Expr::Yeet { expr } => write_jump("yeet", *expr, line),
            Expr::Become { expr } => write_jump("become", Some(*expr), line),
            Expr::Await { expr } => write_jump("await", Some(*expr), line),
            Expr::RecordLit {
                path,
                fields,
                spread,
            } => {
                line.keyword("record");
                path.write(line);
                for field in fields {
                    line.name(&field.name);
                    line.join(':');
                    line.join_id(field.expr);
                }
                match spread {
                    RecordSpread::None => {}
                    RecordSpread::FieldDefaults => line.keyword(".."),
                    RecordSpread::Expr(expr) => line.prefixed_id("..", Some(*expr)),
                }
            }
            Expr::Field { expr, name } => {
                line.keyword("field");
                line.id(*expr);
                line.name(name);
            }
            Expr::Cast { expr, type_ref } => {
                line.keyword("cast");
                line.id(*expr);
                line.id(*type_ref);
            }
            Expr::Ref {
                expr,
                rawness,
                mutability,
            } => {
                line.keyword("ref");
                line.id(*expr);
                line.flag(rawness.is_raw(), "raw");
                line.flag(mutability.is_mut(), "mut");
            }
            Expr::UnaryOp { expr, op } => {
                line.keyword("unary");
                op.write(line);
                line.id(*expr);
            }
            Expr::BinaryOp { lhs, rhs, op } => {
                line.keyword("bin");
                match op {
                    Some(op) => op.write(line),
                    None => line.keyword("missing"),
                }
                line.id(*lhs);
                line.id(*rhs);
            }
            Expr::Assignment { target, value } => {
                line.keyword("assign");
                line.id(*target);
                line.id(*value);
            }
            Expr::Index { base, index } => {
                line.keyword("index");
                line.id(*base);
                line.id(*index);
            }
            Expr::Closure {
                args,
                arg_types,
                ret_type,
                body,
                closure_kind,
                capture_by,
            } => {
                line.keyword("closure");
                line.id(*body);
                line.ids(args);
                write_arg_types(arg_types, args.len(), line);
                line.prefixed_id("ret:", *ret_type);
                line.flag(*capture_by == CaptureBy::Value, "move");
                write_closure_kind(*closure_kind, line);
            }
            Expr::Tuple { exprs } => {
                line.keyword("tuple");
                line.ids(exprs);
            }
        }
    }

    #[allow(clippy::too_many_lines)] // One arm a form.
    fn read(words: &mut Words<'_>) -> Option<Expr> {
        Some(match words.next_keyword()? {
            "missing" => Expr::Missing,
            "underscore" => Expr::Underscore,
            "include-bytes" => Expr::IncludeBytes,
            "path" => Expr::Path(Notation::read(words)?),
            "array" => Expr::Array(Array::ElementList {
                elements: words.next_ids()?,
            }),
            "repeat" => Expr::Array(Array::Repeat {
                initializer: words.next_id()?,
                repeat: words.next_id()?,
            }),
            "offset-of" => Expr::OffsetOf(read_names(words)?),
            "const" => Expr::Const(words.next_id()?),
            "if" => Expr::If {
                condition: words.next_id()?,
                then_branch: words.next_id()?,
                else_branch: words.next_opt_id()?,
            },
            "let" => Expr::Let {
                pat: words.next_id()?,
                expr: words.next_id()?,
            },
            "block" => read_block(words)?,
            "loop" => read_loop(words)?,
            "call" => Expr::Call {
                callee: words.next_id()?,
                args: words.next_ids()?,
            },
            "method" => read_method(words)?,
            "match" => Expr::Match {
                expr: words.next_id()?,
                arms: read_each(words)?,
            },
            "continue" => Expr::Continue {
                label: words.prefixed_id("label:")?,
            },
            "break" => Expr::Break {
                expr: words.next_opt_id()?,
                label: words.prefixed_id("label:")?,
            },
            "return" => Expr::Return {
                expr: words.next_opt_id()?,
            },
            "yield" => Expr::Yield {
                expr: words.next_opt_id()?,
            },
            "yeet" => Expr::Yeet {
                expr: words.next_opt_id()?,
            },
            "become" => Expr::Become {
                expr: words.next_id()?,
            },
            "await" => Expr::Await {
                expr: words.next_id()?,
            },
            "record" => Expr::RecordLit {
                path: Notation::read(words)?,
                fields: words.spaced(read_field)?,
                spread: read_spread(words)?,
            },
            "field" => Expr::Field {
                expr: words.next_id()?,
                name: words.next_name()?,
            },
            "cast" => Expr::Cast {
                expr: words.next_id()?,
                type_ref: words.next_id()?,
            },
            "ref" => Expr::Ref {
                expr: words.next_id()?,
                rawness: Rawness::from_raw(words.flag("raw")),
                mutability: Mutability::from_mutable(words.flag("mut")),
            },
            "unary" => Expr::UnaryOp {
                op: Notation::read(words)?,
                expr: words.next_id()?,
            },
            "bin" => Expr::BinaryOp {
                op: if words.flag("missing") {
                    None
                } else {
                    Some(Notation::read(words)?)
                },
                lhs: words.next_id()?,
                rhs: words.next_id()?,
            },
            "assign" => Expr::Assignment {
                target: words.next_id()?,
                value: words.next_id()?,
            },
            "index" => Expr::Index {
                base: words.next_id()?,
                index: words.next_id()?,
            },
            "closure" => read_closure(words)?,
            "tuple" => Expr::Tuple {
                exprs: words.next_ids()?,
            },
            literal => Expr::Literal(read_form(literal, words)?),
        })
    }
}
