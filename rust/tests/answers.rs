//! Typed questions and answers on bodies that are built here, and the faults of builders and bodies.

#[path = "common/nodes.rs"]
mod nodes;

use hir_expr_store::hir::{
    Array, Binding, CaptureBy, ClosureKind, Expr, GenericArg, GenericArgs, Label, Literal,
    LoopSource, MatchArm, ModPath, Mutability, NormalPath, Pat, Path, PathId, PathKind, Rawness,
    Statement, TraitBoundModifier, TypeBound, TypeRef,
};
use hir_expr_store::{
    Batch, BindingId, Body, BodyFault, Child, Edition, ExprId, ExprOrPatId, ExpressionStoreBuilder,
    FinishFault, Frame, FunctionId, HirError, HygieneId, Missing, Name, NamedDef, NodeId, Param,
    ScopeEntry, SessionError, StructId, Tables, TypeRefId,
};
use nodes::{bind, block, f, local};

type Outcome = Result<(), Box<dyn std::error::Error>>;

/// `fn f(a, b) { let c = |d| (a, d, a, ); c }`
struct Closure {
    body: Body,
    a: BindingId,
    d: BindingId,
    used: [ExprId; 3],
    tuple: ExprId,
    at: ExprId,
    at_c: ExprId,
    c: BindingId,
}

fn closure() -> Result<Closure, Box<dyn std::error::Error>> {
    let mut builder = ExpressionStoreBuilder::new();
    let (a, a_pat) = bind(&mut builder, "a");
    let (_, b_pat) = bind(&mut builder, "b");
    let (c, c_pat) = bind(&mut builder, "c");
    let (d, d_pat) = bind(&mut builder, "d");
    let used = ["a", "d", "a"].map(|name| local(&mut builder, name));
    let tuple = builder.alloc_expr(Expr::Tuple {
        exprs: used.to_vec(),
    });
    let closure = builder.alloc_expr(Expr::Closure {
        args: vec![d_pat],
        arg_types: vec![None],
        ret_type: None,
        body: tuple,
        closure_kind: ClosureKind::Closure,
        capture_by: CaptureBy::Ref,
    });
    let at_c = local(&mut builder, "c");
    let statement = Statement::Let {
        pat: c_pat,
        type_ref: None,
        initializer: Some(closure),
        else_branch: None,
    };
    let root = block(&mut builder, vec![statement], Some(at_c));
    builder.push_root(root);
    let params = vec![Param::new(a_pat), Param::new(b_pat)];
    let body = Body::new(f(), builder.finish()?, params, None)?;
    Ok(Closure {
        body,
        a,
        d,
        used,
        tuple,
        at: closure,
        at_c,
        c,
    })
}

#[test]
fn closures_capture_what_they_use() -> Outcome {
    let it = closure()?;
    let mut batch = Batch::of_body(&it.body);
    let captures = batch.captures(it.at);
    let no_closure = batch.captures(it.tuple);
    let absent = batch.captures(ExprId::from_raw(1000));
    let meanings = it.used.map(|expr| {
        (
            batch.resolve(expr, &"a".into(), HygieneId::ROOT),
            batch.resolve(expr, &"d".into(), HygieneId::ROOT),
        )
    });
    let at_c = batch.resolve(it.at_c, &"c".into(), HygieneId::ROOT);
    let no_d = batch.resolve(it.at_c, &"d".into(), HygieneId::ROOT);
    let expanded = batch.resolve(it.at_c, &"c".into(), HygieneId::expansion(3));
    let chain = batch.chain(it.tuple);
    let frames = batch.frames(it.tuple);
    let unreached = batch.chain(ExprId::from_raw(1000));
    let answers = batch.ask()?;
    assert_eq!(answers.get(captures), Ok(vec![it.a]));
    assert_eq!(answers.get(no_closure), Err(HirError::NotAClosure));
    assert_eq!(answers.get(absent), Err(HirError::NotAClosure));
    for (a, d) in meanings {
        assert_eq!(answers.get(a), Ok(Some(it.a)));
        assert_eq!(answers.get(d), Ok(Some(it.d)));
    }
    assert_eq!(answers.get(at_c), Ok(Some(it.c)));
    assert_eq!(answers.get(no_d), Ok(None));
    assert_eq!(answers.get(expanded), Ok(None));
    let names: Vec<Name> = ["d", "b", "a"].map(Name::from).to_vec();
    assert_eq!(
        answers.get(chain).map(|mut names| {
            names.sort();
            names
        }),
        Ok({
            let mut names = names;
            names.sort();
            names
        })
    );
    assert_eq!(
        answers.get(frames)?.first(),
        Some(&Frame {
            entries: vec![ScopeEntry {
                name: "d".into(),
                binding: it.d,
                hygiene: HygieneId::ROOT
            }],
            ..Frame::default()
        })
    );
    assert_eq!(answers.get(unreached), Err(HirError::Unreached));
    Ok(())
}

#[test]
fn nodes_have_children_and_roots() -> Outcome {
    let it = closure()?;
    let mut batch = Batch::of_body(&it.body);
    let children = batch.children(it.tuple);
    let of_closure = batch.visit_expr(it.at);
    let root = batch.root_for_expr(it.tuple);
    let of_binding = batch.root_for_binding(it.d);
    let absent = batch.children(ExprId::from_raw(1000));
    let answers = batch.ask()?;
    assert_eq!(answers.get(children), Ok(it.used.to_vec()));
    let Expr::Closure { args, .. } = &it.body.store()[it.at] else {
        panic!("a closure");
    };
    assert_eq!(
        answers.get(of_closure),
        Ok(vec![Child::Expr(it.tuple), Child::Pat(args[0])])
    );
    assert_eq!(answers.get(root), Ok(it.body.root_expr()));
    assert_eq!(answers.get(of_binding), Ok(it.body.root_expr()));
    assert_eq!(answers.get(absent), Err(HirError::UnknownId));
    Ok(())
}

#[test]
fn bodies_are_printed_with_their_names() -> Outcome {
    let it = closure()?;
    let mut tables = Tables::new();
    let mut unnamed = Batch::of_body(&it.body);
    let text = unnamed.print_body(f(), Edition::Edition2021);
    assert_eq!(
        unnamed.ask()?.get(text),
        Err(HirError::Missing(Missing::Name(NamedDef::FunctionId(
            FunctionId::from_raw(0)
        ))))
    );
    tables.add_name(FunctionId::from_raw(0), Some(&"f".into()));
    let mut named = Batch::of_body(&it.body).with_tables(&tables);
    let text = named.print_body(f(), Edition::Edition2021);
    let closure = named.print_expr(it.at, Edition::Edition2024);
    let answers = named.ask()?;
    assert_eq!(
        answers.get(text)?,
        "fn f(a, b) {\n    let c = |d| (a, d, a, );\n    c\n}"
    );
    assert_eq!(answers.get(closure)?, "|d| (a, d, a, )");
    Ok(())
}

fn fault_of(builder: ExpressionStoreBuilder) -> HirError {
    builder.finish().unwrap_err().error
}

#[test]
fn builders_are_refused_by_their_first_fault() {
    let expr = |number| NodeId::Expr(ExprId::from_raw(number));
    let mut builder = ExpressionStoreBuilder::new();
    local(&mut builder, "a");
    assert_eq!(fault_of(builder), HirError::Store(FinishFault::NoRoots));

    let mut builder = ExpressionStoreBuilder::new();
    let a = local(&mut builder, "a");
    builder.alloc_expr(Expr::Tuple { exprs: vec![a, a] });
    builder.begin_roots();
    assert_eq!(
        fault_of(builder),
        HirError::Store(FinishFault::SharedChild(expr(0)))
    );

    let mut builder = ExpressionStoreBuilder::new();
    builder.alloc_expr(Expr::Await {
        expr: ExprId::from_raw(0),
    });
    builder.begin_roots();
    assert_eq!(
        fault_of(builder),
        HirError::Store(FinishFault::Cycle(expr(0)))
    );

    let mut builder = ExpressionStoreBuilder::new();
    builder.alloc_expr(Expr::Await {
        expr: ExprId::from_raw(7),
    });
    builder.begin_roots();
    let refused = builder.finish().unwrap_err();
    assert_eq!(
        refused.error,
        HirError::Store(FinishFault::IdOutOfRange(expr(0)))
    );
    assert_eq!(refused.builder.exprs().len(), 1);

    let mut builder = ExpressionStoreBuilder::new();
    builder.push_root(ExprId::from_raw(3));
    assert_eq!(
        fault_of(builder),
        HirError::Store(FinishFault::RootOutOfRange(0))
    );

    let mut builder = ExpressionStoreBuilder::new();
    let never = builder.alloc_type(TypeRef::Never);
    builder.alloc_type(TypeRef::ImplTrait(vec![TypeBound::Path(
        PathId::from_type_ref_unchecked(never),
        TraitBoundModifier::None,
    )]));
    let node = NodeId::TypeRef(TypeRefId::from_raw(1));
    assert_eq!(
        fault_of(builder),
        HirError::Store(FinishFault::NotAPath(node))
    );
}

#[test]
fn what_the_grammar_has_no_words_for_is_refused() {
    let mut builder = ExpressionStoreBuilder::new();
    let path = NormalPath {
        generic_args: vec![None; 300],
        type_anchor: None,
        mod_path: ModPath::from_name("a".into()),
    };
    builder.alloc_expr(Expr::Path(Path::Normal(Box::new(path))));
    builder.begin_roots();
    assert!(matches!(
        fault_of(builder),
        HirError::Session(SessionError::BadLine(_))
    ));
}

#[test]
fn bodies_are_refused_by_their_first_fault() -> Outcome {
    let mut builder = ExpressionStoreBuilder::new();
    let (_, a_pat) = bind(&mut builder, "a");
    let root = local(&mut builder, "a");
    builder.push_root(root);
    let store = builder.finish()?;
    let twice = vec![Param::new(a_pat), Param::new(a_pat)];
    let refused = Body::new(f(), store, twice, None).unwrap_err();
    assert_eq!(refused.error, HirError::Body(BodyFault::ParamRepeated(1)));
    let absent = Some(Param::new(BindingId::from_raw(9)));
    let refused = Body::new(f(), refused.store, Vec::new(), absent).unwrap_err();
    assert_eq!(refused.error, HirError::Body(BodyFault::SelfOutOfRange));
    let body = Body::new(f(), refused.store, vec![Param::new(a_pat)], None)?;
    assert_eq!(body.root_expr(), root);

    let empty = ExpressionStoreBuilder::new().finish()?;
    let refused = Body::new(f(), empty, Vec::new(), None).unwrap_err();
    assert_eq!(refused.error, HirError::Body(BodyFault::NoRoot));
    Ok(())
}

/// `fn f(&self, v) { 'l: for x in v { match x { 0 => continue 'l, y if y => self.n::<u8>(y), _ => [x; 2] } } }`, as lowering has it in
/// part, with hygiene.
#[test]
fn many_nodes_stand_in_one_body() -> Outcome {
    let mut builder = ExpressionStoreBuilder::new();
    let this = builder.alloc_binding(Binding::new("self".into()));
    let (v, v_pat) = bind(&mut builder, "v");
    let (x, x_pat) = bind(&mut builder, "x");
    let (y, y_pat) = bind(&mut builder, "y");
    let label = builder.alloc_label(Label { name: "'l".into() });
    let at_v = local(&mut builder, "v");
    let at_x = local(&mut builder, "x");
    let zero = builder.alloc_expr(Expr::Literal(Literal::Int(0, None)));
    let zero_pat = builder.alloc_pat(Pat::Lit(zero));
    let go_on = builder.alloc_expr(Expr::Continue { label: Some(label) });
    let guard = local(&mut builder, "y");
    let at_self = local(&mut builder, "self");
    let u8_type = builder.alloc_type(TypeRef::Path(Path::from_name("u8".into())));
    let arg = local(&mut builder, "y");
    let call = builder.alloc_expr(Expr::MethodCall {
        receiver: at_self,
        method_name: "n".into(),
        args: vec![arg],
        generic_args: Some(Box::new(GenericArgs {
            args: vec![GenericArg::Ty(u8_type)],
            ..GenericArgs::default()
        })),
    });
    let wild = builder.alloc_pat(Pat::Wild);
    let in_array = local(&mut builder, "x");
    builder.set_hygiene(ExprOrPatId::ExprId(in_array), HygieneId::expansion(5));
    let two = local(&mut builder, "x");
    let array = builder.alloc_expr(Expr::Array(Array::Repeat {
        initializer: in_array,
        repeat: two,
    }));
    let arms = vec![
        MatchArm {
            pat: zero_pat,
            guard: None,
            expr: go_on,
        },
        MatchArm {
            pat: y_pat,
            guard: Some(guard),
            expr: call,
        },
        MatchArm {
            pat: wild,
            guard: None,
            expr: array,
        },
    ];
    let matched = builder.alloc_expr(Expr::Match { expr: at_x, arms });
    let statement = Statement::Let {
        pat: x_pat,
        type_ref: None,
        initializer: Some(at_v),
        else_branch: None,
    };
    let inner = block(&mut builder, vec![statement], Some(matched));
    let root = builder.alloc_expr(Expr::Loop {
        body: inner,
        label: Some(label),
        source: LoopSource::ForLoop,
    });
    builder.push_root(root);
    let store = builder.finish()?;
    assert_eq!(
        store.expr_or_pat_path_hygiene(ExprOrPatId::ExprId(in_array)),
        HygieneId::expansion(5)
    );
    let body = Body::new(f(), store, vec![Param::new(v_pat)], Some(Param::new(this)))?;
    let mut batch = Batch::of_body(&body);
    let wanted = [
        (batch.resolve(at_v, &"v".into(), HygieneId::ROOT), Some(v)),
        (batch.resolve(at_x, &"x".into(), HygieneId::ROOT), Some(x)),
        (batch.resolve(guard, &"y".into(), HygieneId::ROOT), Some(y)),
        (batch.resolve(arg, &"y".into(), HygieneId::ROOT), Some(y)),
        (batch.resolve(in_array, &"y".into(), HygieneId::ROOT), None),
        (
            batch.resolve(at_self, &"self".into(), HygieneId::ROOT),
            Some(this),
        ),
        // The number of an array's items is a constant.
        (batch.resolve(two, &"x".into(), HygieneId::ROOT), None),
    ];
    let frames = batch.frames(arg);
    let answers = batch.ask()?;
    for (question, wanted) in wanted {
        assert_eq!(answers.get(question), Ok(wanted));
    }
    let labels: Vec<_> = answers
        .get(frames)?
        .into_iter()
        .filter_map(|frame| frame.label)
        .collect();
    assert_eq!(labels, [label]);
    Ok(())
}

#[test]
fn paths_have_their_parts() {
    let path = ModPath::from_segments(PathKind::Crate, ["a".into(), "b".into()]);
    assert_eq!(path.as_ident(), None);
    let bare = Path::from_known_path(path.clone(), vec![None, None]);
    assert_eq!(bare, Path::BarePath(path));
    assert_eq!(Path::from_name("x".into()).as_ident(), Some(&"x".into()));
    assert!(Mutability::from_mutable(true).is_mut());
    assert!(!Rawness::from_raw(false).is_raw());
    assert_eq!(
        Literal::Int(i128::MIN, None).negate(),
        Some(Literal::Int(i128::MIN, None))
    );
    assert_eq!(StructId::from_raw(4).to_string(), "StructId(4)");
}
