//! Questions on uses, visible names, renames, ancestors and jumps, on bodies that are built here.

#[path = "common/nodes.rs"]
mod nodes;

use hir_expr_store::hir::{
    Binding, CaptureBy, ClosureKind, Expr, Label, Literal, LoopSource, Pat, Path, RecordFieldPat,
    Statement,
};
use hir_expr_store::{
    Batch, BindingId, Body, Edition, ExprId, ExprOrPatId, ExpressionStoreBuilder, FunctionId,
    HirError, HygieneId, LabelId, Missing, Name, NamedDef, NodeId, Param, PatId, RenameFault,
    ScopeEntry, Tables, Usage,
};
use nodes::{bind, block, f, local};

type Outcome = Result<(), Box<dyn std::error::Error>>;

fn let_(pat: PatId, value: ExprId) -> Statement {
    Statement::Let {
        pat,
        type_ref: None,
        initializer: Some(value),
        else_branch: None,
    }
}

fn zero(builder: &mut ExpressionStoreBuilder) -> ExprId {
    builder.alloc_expr(Expr::Literal(Literal::Int(0, None)))
}

fn usage(path: ExprId, binding: Option<BindingId>) -> Usage {
    Usage {
        path: ExprOrPatId::ExprId(path),
        binding,
    }
}

fn entry(name: &str, binding: BindingId) -> ScopeEntry {
    ScopeEntry {
        name: name.into(),
        binding,
        hygiene: HygieneId::ROOT,
    }
}

/// `fn f(x) { let y = x; let x = y; (x, z) }`: shadowing that harms no rename, and a name that is no variable.
#[test]
fn uses_resolve_to_the_nearest_binding() -> Outcome {
    let mut builder = ExpressionStoreBuilder::new();
    let (x, x_pat) = bind(&mut builder, "x");
    let (y, y_pat) = bind(&mut builder, "y");
    let (shadow, shadow_pat) = bind(&mut builder, "x");
    let [at_x, at_y, at_shadow, at_z] = ["x", "y", "x", "z"].map(|it| local(&mut builder, it));
    let tuple = builder.alloc_expr(Expr::Tuple {
        exprs: vec![at_shadow, at_z],
    });
    let statements = vec![let_(y_pat, at_x), let_(shadow_pat, at_y)];
    let root = block(&mut builder, statements, Some(tuple));
    builder.push_root(root);
    let body = Body::new(f(), builder.finish()?, vec![Param::new(x_pat)], None)?;

    let mut batch = Batch::of_body(&body);
    let usages = batch.usages();
    let of = [x, y, shadow].map(|binding| batch.usages_of(binding));
    let of_absent = batch.usages_of(BindingId::from_raw(9));
    let unresolved = batch.unresolved();
    let unused = batch.unused();
    let visible = batch.visible_names(tuple);
    let unreached = batch.visible_names(ExprId::from_raw(1000));
    let to_y = batch.rename(x, &"y".into());
    let to_z = batch.rename(x, &"z".into());
    let of_shadow = batch.rename(shadow, &"y".into());
    let absent = batch.rename(BindingId::from_raw(9), &"y".into());
    let to_other = batch.rename(x, &"ein Name".into());
    let answers = batch.ask()?;
    assert_eq!(
        answers.get(usages)?,
        [
            usage(at_x, Some(x)),
            usage(at_y, Some(y)),
            usage(at_shadow, Some(shadow)),
            usage(at_z, None)
        ]
    );
    for (question, wanted) in of.into_iter().zip([at_x, at_y, at_shadow]) {
        assert_eq!(answers.get(question)?, [ExprOrPatId::ExprId(wanted)]);
    }
    assert_eq!(answers.get(of_absent)?, []);
    assert_eq!(answers.get(unresolved)?, [ExprOrPatId::ExprId(at_z)]);
    assert_eq!(answers.get(unused)?, []);
    assert_eq!(answers.get(visible)?, [entry("x", shadow), entry("y", y)]);
    assert_eq!(answers.get(unreached), Err(HirError::Unreached));
    assert_eq!(answers.get(to_y)?, [ExprOrPatId::ExprId(at_x)]);
    assert_eq!(
        answers.get(to_z),
        Err(HirError::Rename(RenameFault::Captures {
            usage: ExprOrPatId::ExprId(at_z),
            was: None
        }))
    );
    assert_eq!(answers.get(of_shadow)?, [ExprOrPatId::ExprId(at_shadow)]);
    assert_eq!(
        answers.get(absent),
        Err(HirError::Rename(RenameFault::NotBound))
    );
    assert_eq!(answers.get(to_other)?, [ExprOrPatId::ExprId(at_x)]);

    let all = body.usages()?;
    assert_eq!(
        all.iter().copied().collect::<Vec<_>>(),
        answers.get(usages)?
    );
    for binding in [x, y, shadow, BindingId::from_raw(9)] {
        let wanted: Vec<ExprOrPatId> = all
            .iter()
            .filter(|usage| usage.binding == Some(binding))
            .map(|usage| usage.path)
            .collect();
        assert_eq!(all.of(binding), wanted);
    }
    assert_eq!(all.unresolved(), answers.get(unresolved)?);
    assert_eq!(all.unused(), answers.get(unused)?);
    assert_eq!(body.scopes()?.visible_names(tuple)?, answers.get(visible)?);
    Ok(())
}

/// `fn f(self, (x, a)) { |y| x = (self, a, 0) }`: a use in the target of an assignment, and each reason why there is no rename.
#[test]
fn renames_are_refused_with_the_first_reason() -> Outcome {
    let mut builder = ExpressionStoreBuilder::new();
    let this = builder.alloc_binding(Binding::new("self".into()));
    let (x, x_pat) = bind(&mut builder, "x");
    let (a, a_pat) = bind(&mut builder, "a");
    let (y, y_pat) = bind(&mut builder, "y");
    let param = builder.alloc_pat(Pat::Tuple {
        args: vec![x_pat, a_pat],
        ellipsis: None,
    });
    let target = builder.alloc_pat(Pat::Path(Path::from_name("x".into())));
    let [at_self, at_a] = ["self", "a"].map(|it| local(&mut builder, it));
    let exprs = vec![at_self, at_a, zero(&mut builder)];
    let value = builder.alloc_expr(Expr::Tuple { exprs });
    let assignment = builder.alloc_expr(Expr::Assignment { target, value });
    let root = builder.alloc_expr(Expr::Closure {
        args: vec![y_pat],
        arg_types: vec![None],
        ret_type: None,
        body: assignment,
        closure_kind: ClosureKind::Closure,
        capture_by: CaptureBy::Ref,
    });
    builder.push_root(root);
    let params = vec![Param::new(param)];
    let body = Body::new(f(), builder.finish()?, params, Some(Param::new(this)))?;

    let at_x = ExprOrPatId::PatId(target);
    let at_a = ExprOrPatId::ExprId(at_a);
    let wanted = [
        (x, "z", Ok(vec![at_x])),
        (x, "x", Ok(vec![at_x])),
        (y, "z", Ok(Vec::new())),
        (x, "a", Err(RenameFault::SameFrame { other: a })),
        (x, "y", Err(RenameFault::Hidden { usage: at_x, by: y })),
        (a, "y", Err(RenameFault::Hidden { usage: at_a, by: y })),
        (
            y,
            "x",
            Err(RenameFault::Captures {
                usage: at_x,
                was: Some(x),
            }),
        ),
        (
            y,
            "a",
            Err(RenameFault::Captures {
                usage: at_a,
                was: Some(a),
            }),
        ),
        (y, "self", Err(RenameFault::IsSelf)),
        (this, "that", Err(RenameFault::IsSelf)),
    ];
    let mut batch = Batch::of_body(&body);
    let questions = wanted
        .clone()
        .map(|(binding, name, _)| batch.rename(binding, &name.into()));
    let unused = batch.unused();
    let answers = batch.ask()?;
    for (question, (binding, name, wanted)) in questions.into_iter().zip(wanted) {
        let wanted = wanted.map_err(HirError::Rename);
        assert_eq!(answers.get(question), wanted, "{binding} to {name}");
        assert_eq!(body.rename(binding, &name.into()), wanted);
    }
    assert_eq!(answers.get(unused)?, [y]);
    Ok(())
}

/// `fn f(P { x }) { x }`, printed with another name.
#[test]
fn renamed_bodies_are_printed() -> Outcome {
    let mut builder = ExpressionStoreBuilder::new();
    let (x, x_pat) = bind(&mut builder, "x");
    let record = builder.alloc_pat(Pat::Record {
        path: Path::from_name("P".into()),
        args: vec![RecordFieldPat {
            name: "x".into(),
            pat: x_pat,
        }],
        ellipsis: false,
    });
    let at_x = local(&mut builder, "x");
    let root = block(&mut builder, Vec::new(), Some(at_x));
    builder.push_root(root);
    let body = Body::new(f(), builder.finish()?, vec![Param::new(record)], None)?;

    let mut unnamed = Batch::of_body(&body);
    let text = unnamed.renamed(x, &"y".into(), Edition::Edition2021);
    let missing = Missing::Name(NamedDef::FunctionId(FunctionId::from_raw(0)));
    assert_eq!(unnamed.ask()?.get(text), Err(HirError::Missing(missing)));
    let mut tables = Tables::new();
    tables.add_name(FunctionId::from_raw(0), Some(&"f".into()));
    let mut batch = Batch::of_body(&body).with_tables(&tables);
    let text = batch.renamed(x, &"y".into(), Edition::Edition2021);
    let to_self = batch.renamed(x, &"self".into(), Edition::Edition2021);
    let answers = batch.ask()?;
    let wanted = "fn f(P {\n    x: y,\n}) {\n    y\n}";
    assert_eq!(answers.get(text)?, wanted);
    assert_eq!(
        answers.get(to_self),
        Err(HirError::Rename(RenameFault::IsSelf))
    );
    assert_eq!(
        body.renamed(x, &"y".into(), &tables, Edition::Edition2021)?,
        wanted
    );
    Ok(())
}

#[test]
fn a_store_without_a_body_has_no_uses() -> Outcome {
    let mut builder = ExpressionStoreBuilder::new();
    let at_x = local(&mut builder, "x");
    builder.push_root(at_x);
    let store = builder.finish()?;
    let mut batch = Batch::of_store(&store);
    let usages = batch.usages();
    let unused = batch.unused();
    let rename = batch.rename(BindingId::from_raw(0), &Name::new("y"));
    let visible = batch.visible_names(at_x);
    let answers = batch.ask()?;
    assert_eq!(answers.get(usages), Err(HirError::UnknownId));
    assert_eq!(answers.get(unused), Err(HirError::UnknownId));
    assert_eq!(answers.get(rename), Err(HirError::UnknownId));
    assert_eq!(answers.get(visible)?, []);
    Ok(())
}

fn loop_(builder: &mut ExpressionStoreBuilder, body: ExprId, label: Option<LabelId>) -> ExprId {
    builder.alloc_expr(Expr::Loop {
        body,
        label,
        source: LoopSource::Loop,
    })
}

/// `'a: loop { loop { break 'a; continue } } ; || break`, in a block.
#[test]
fn jumps_leave_loops() -> Outcome {
    let mut builder = ExpressionStoreBuilder::new();
    let label = builder.alloc_label(Label { name: "'a".into() });
    let leave = builder.alloc_expr(Expr::Break {
        expr: None,
        label: Some(label),
    });
    let go_on = builder.alloc_expr(Expr::Continue { label: None });
    let statement = Statement::Expr {
        expr: leave,
        has_semi: true,
    };
    let inner_block = block(&mut builder, vec![statement], Some(go_on));
    let inner = loop_(&mut builder, inner_block, None);
    let outer = loop_(&mut builder, inner, Some(label));
    let nowhere = builder.alloc_expr(Expr::Break {
        expr: None,
        label: None,
    });
    let closure = builder.alloc_expr(Expr::Closure {
        args: Vec::new(),
        arg_types: Vec::new(),
        ret_type: None,
        body: nowhere,
        closure_kind: ClosureKind::Closure,
        capture_by: CaptureBy::Ref,
    });
    let root = builder.alloc_expr(Expr::Tuple {
        exprs: vec![outer, closure],
    });
    builder.push_root(root);
    let store = builder.finish()?;

    let mut batch = Batch::of_store(&store);
    let targets = [leave, go_on, nowhere, inner].map(|expr| batch.jump_target(expr));
    let loops = [go_on, inner, outer, nowhere].map(|expr| batch.enclosing_loop(expr));
    let closures = [nowhere, closure, leave].map(|expr| batch.enclosing_closure(expr));
    let parents = [leave, root].map(|expr| batch.parent(NodeId::Expr(expr)));
    let ancestors = batch.ancestors(NodeId::Expr(leave));
    let answers = batch.ask()?;
    for (question, wanted) in targets
        .into_iter()
        .zip([Some(outer), Some(inner), None, None])
    {
        assert_eq!(answers.get(question)?, wanted);
    }
    for (question, wanted) in loops
        .into_iter()
        .zip([Some(inner), Some(outer), None, None])
    {
        assert_eq!(answers.get(question)?, wanted);
    }
    for (question, wanted) in closures.into_iter().zip([Some(closure), None, None]) {
        assert_eq!(answers.get(question)?, wanted);
    }
    for (question, wanted) in parents.into_iter().zip([Some(inner_block), None]) {
        assert_eq!(answers.get(question)?, wanted.map(NodeId::Expr));
    }
    let around = [inner_block, inner, outer, root].map(NodeId::Expr);
    assert_eq!(answers.get(ancestors)?, around);
    Ok(())
}
