//! A store in hand: what the calls on one return, how long its session lasts, and what is said where there is none.

#[path = "common/nodes.rs"]
mod nodes;

use hir_expr_store::hir::{
    ConstRef, Expr, Literal, Path, PathId, TraitBoundModifier, TypeBound, TypeRef,
};
use hir_expr_store::{
    make, Batch, Body, Child, ConstParamData, CrateId, Edition, EnumId, EnumVariantId, ExprId,
    ExprOrPatId, ExprPrecedence, ExpressionStoreBuilder, ExpressionStoreDiagnostics, FieldData,
    FieldsShape, FunctionData, FunctionId, FunctionSignature, GenericCounts, GenericParams,
    HirError, HirFileId, HygieneId, LifetimeBoundType, LifetimeParamData, LocalTypeOrConstParamId,
    MacroCallId, Missing, MissingBodyItemKind, NodeId, Param, PlainDef, PlainSignature,
    RawVisibility, Repr, SessionError, SignatureFault, Source, StructData, StructId,
    StructSignature, Tables, TextRange, TraitId, TypeOrConstParamData, TypeOrConstParamId,
    TypeParamData, TypeParamId, TypeParamProvenance, UnionId, VariantFields, WherePredicate,
};
use nodes::f;
use std::sync::Arc;
use std::thread;

type Outcome = Result<(), Box<dyn std::error::Error>>;

const EDITION: Edition = Edition::Edition2021;

fn source(start: u32) -> Source {
    let range = TextRange {
        start,
        end: start + 1,
    };
    Source::new(HirFileId::from_raw(0), 7, range)
}

/// `fn f(x) { let y = |z| (x, z); y }`
fn body() -> Result<(Body, ExprId, ExprId), HirError> {
    let mut builder = ExpressionStoreBuilder::new();
    let [x, y, z] = ["x", "y", "z"].map(|name| make::bind(&mut builder, name));
    let used = ["x", "z"].map(|name| make::local(&mut builder, name));
    let tuple = make::tuple(&mut builder, &used);
    let closure = make::closure(&mut builder, &[z], tuple);
    let tail = make::local(&mut builder, "y");
    let root = make::block(&mut builder, vec![make::let_(y, closure)], tail);
    Ok((make::body(f(), builder, &[x], root)?, closure, tail))
}

#[test]
fn a_body_is_asked_one_question_at_a_time() -> Outcome {
    let (body, closure, tail) = body()?;
    let (x, y) = (
        body.bound_by(body.params()[0].formal),
        body.scopes()?.binding_at(tail)?,
    );
    assert_eq!(body.captures(closure)?, Vec::from_iter(x));
    assert_eq!(body.captures(tail), Err(HirError::NotAClosure));
    assert_eq!(body.usages()?.of(y.unwrap()), [ExprOrPatId::ExprId(tail)]);
    assert_eq!(
        body.scopes()?.chain(ExprId::from_raw(99)),
        Err(HirError::Unreached)
    );
    assert_eq!(body.scopes()?.binding_at(closure)?, None);
    assert_eq!(body.scopes()?.scoped_exprs()?.len(), body.exprs().len());
    assert_eq!(body.enclosing_closure(ExprId::from_raw(0))?, Some(closure));
    assert_eq!(
        body.parent(NodeId::Expr(tail))?,
        Some(NodeId::Expr(body.root_expr()))
    );
    assert_eq!(
        body.children(ExprId::from_raw(99)),
        Err(HirError::UnknownId)
    );
    assert_eq!(body.precedence(closure)?, ExprPrecedence::Jump);
    assert_eq!(body.self_param_syntax()?, None);
    let scopes = body.scopes()?;
    assert_eq!(
        scopes.resolve_through(tail, &"y".into(), HygieneId::ROOT, &[])?,
        y
    );
    assert!(scopes.scope_count() > 0 && scopes.entry_count() == 3);
    Ok(())
}

#[test]
fn a_batch_knows_its_questions() -> Outcome {
    let (body, closure, tail) = body()?;
    let mut batch = Batch::of_body(&body);
    let captures = batch.captures(closure);
    let chain = batch.chain(tail);
    let answers = batch.ask()?;
    assert_eq!(answers.get(captures)?, body.captures(closure)?);
    let mut other = Batch::of_body(&body);
    other.captures(tail);
    let of_other = other.chain(tail);
    assert_eq!(answers.get(of_other), Err(HirError::OtherBatch));
    assert_eq!(other.ask()?.get(captures), Err(HirError::OtherBatch));
    // A question that was added after the answers came isn't one of theirs.
    let late = batch.children(closure);
    assert_eq!(answers.get(late), Err(HirError::OtherBatch));
    assert_eq!(batch.ask()?.get(chain)?, ["y".into(), "x".into()]);
    Ok(())
}

#[test]
fn sources_are_kept_both_ways() -> Outcome {
    let mut builder = ExpressionStoreBuilder::new();
    let pat = make::bind(&mut builder, "x");
    let label = make::label(&mut builder, "'a");
    let expr = make::local(&mut builder, "x");
    let ty = make::path_type(&mut builder, "T");
    let tuple = make::tuple(&mut builder, &[expr]);
    builder.push_root(tuple);
    builder.set_hygiene(expr, HygieneId::expansion(4));
    builder.map_expr(source(0), expr);
    builder.map_expr(source(1), pat);
    builder.map_expr_back(expr, source(0));
    builder.map_pat(source(2), pat);
    builder.map_pat_back(pat, source(2));
    builder.map_label(source(3), label);
    builder.map_label_back(label, source(3));
    builder.map_type(source(4), ty);
    builder.map_type_back(ty, source(4));
    builder.map_field_back(expr, source(5));
    builder.map_pat_field_back(pat, source(6));
    builder.add_expansion(source(7), MacroCallId::from_raw(9));
    let binding = hir_expr_store::BindingId::from_raw(0);
    builder.add_definition(binding, pat);
    let diagnostics = [
        ExpressionStoreDiagnostics::InactiveCode {
            node: source(1),
            cfg: "a = \"b c\"".into(),
            opts: String::new(),
        },
        ExpressionStoreDiagnostics::MissingBody {
            node: source(2),
            kind: MissingBodyItemKind::AssocType,
        },
        ExpressionStoreDiagnostics::UndeclaredLabel {
            node: source(3),
            name: "'b".into(),
        },
    ];
    for diagnostic in &diagnostics {
        builder.push_diagnostic(diagnostic.clone());
    }
    let store = builder.finish()?;
    assert_eq!(store.node_expr(source(0))?, Some(expr.into()));
    assert_eq!(store.macro_expansion_expr(source(1))?, Some(pat.into()));
    assert_eq!(store.node_pat(source(2))?, Some(pat.into()));
    assert_eq!(store.node_label(source(3))?, Some(label));
    assert_eq!(store.node_type(source(4))?, Some(ty));
    assert_eq!(store.node_type(source(5))?, None);
    assert_eq!(store.expr_syntax(expr)?, Some(source(0)));
    assert_eq!(store.expr_or_pat_syntax(pat.into())?, Some(source(2)));
    assert_eq!(store.pat_syntax(pat)?, Some(source(2)));
    assert_eq!(store.label_syntax(label)?, Some(source(3)));
    assert_eq!(store.type_syntax(ty)?, Some(source(4)));
    assert_eq!(store.field_syntax(expr)?, Some(source(5)));
    assert_eq!(store.pat_field_syntax(pat)?, Some(source(6)));
    assert_eq!(store.expr_syntax(tuple)?, None);
    assert_eq!(store.expansion(source(7))?, Some(MacroCallId::from_raw(9)));
    assert_eq!(store.node_macro_file(source(8))?, None);
    assert_eq!(store.expansions()?, [(source(7), MacroCallId::from_raw(9))]);
    assert_eq!(store.patterns_for_binding(binding)?, [pat]);
    assert_eq!(store.diagnostics()?, diagnostics);
    assert_eq!(
        store.expr_or_pat_path_hygiene(expr.into()),
        HygieneId::expansion(4)
    );
    Ok(())
}

#[test]
fn bounds_and_paths_are_looked_at() -> Outcome {
    let mut builder = ExpressionStoreBuilder::new();
    let path = make::path_type(&mut builder, "Tr");
    let never = builder.alloc_type(TypeRef::Never);
    let minus = make::int(&mut builder, -3);
    builder.push_root(minus);
    let store = builder.finish()?;
    let path_id = PathId::from_type_ref_unchecked(path);
    let maybe = TypeBound::Path(path_id, TraitBoundModifier::Maybe);
    let named = make::path_of(&["Tr"]);
    assert!(store.has_path(path_id)?);
    assert!(!store.has_path(PathId::from_type_ref_unchecked(never))?);
    assert_eq!(
        store.bound_path(&maybe)?,
        Some((named, TraitBoundModifier::Maybe))
    );
    assert_eq!(store.bound_path(&TypeBound::Error)?, None);
    assert_eq!(store.visit_bound(&maybe)?, [Child::Type(path)]);
    let with_args = make::path_with_args("Vec", &[path]);
    assert!(store.path_is_sound(&with_args)?);
    assert_eq!(store.visit_path(&with_args)?, [Child::Type(path)]);
    assert!(!store.path_is_sound(&make::path_with_args(
        "Vec",
        &[hir_expr_store::TypeRefId::from_raw(9)]
    ))?);
    assert_eq!(
        store.print_path(&with_args, &Tables::new(), EDITION)?,
        "Vec::<Tr>"
    );
    assert_eq!(store.negate(minus)?, Some(Literal::Int(3, None)));
    Ok(())
}

/// `fn f<'a, Self, const N: usize = 4>(Self) where Self: Tr`
fn function() -> Result<FunctionSignature, HirError> {
    let mut builder = ExpressionStoreBuilder::new();
    let [ty, bound, number] =
        ["Self", "Tr", "usize"].map(|name| make::path_type(&mut builder, name));
    let four = make::int(&mut builder, 4);
    builder.push_root(four);
    let mut params = GenericParams::default();
    params
        .type_or_consts
        .alloc(TypeOrConstParamData::TypeParamData(TypeParamData {
            name: Some("Self".into()),
            default: None,
            provenance: TypeParamProvenance::TraitSelf,
        }));
    params
        .type_or_consts
        .alloc(TypeOrConstParamData::ConstParamData(ConstParamData {
            name: "N".into(),
            ty: number,
            default: Some(ConstRef { expr: four }),
        }));
    params.lifetimes.alloc(LifetimeParamData {
        name: "'a".into(),
        bound_type: LifetimeBoundType::LateBound,
    });
    params.where_predicates.push(WherePredicate::TypeBound {
        lifetimes: None,
        target: ty,
        bound: TypeBound::Path(
            PathId::from_type_ref_unchecked(bound),
            TraitBoundModifier::None,
        ),
    });
    let data = FunctionData {
        is_const: true,
        ..FunctionData::new("f".into(), vec![ty], None)
    };
    Ok(FunctionSignature::new(
        FunctionId::from_raw(3),
        builder.finish()?,
        params,
        data,
    )?)
}

#[test]
fn signatures_are_asked_and_printed() -> Outcome {
    let signature = function()?;
    let params = signature.generic_params();
    let counts = GenericCounts {
        len: 3,
        no_late: 2,
        lifetimes: 1,
        early: 0,
        late: 1,
        type_or_consts: 2,
        predicates: 1,
    };
    assert_eq!(signature.generic_counts()?, counts);
    let own: Vec<_> = params
        .type_or_consts
        .iter()
        .map(|(id, it)| (id, it.clone()))
        .collect();
    assert_eq!(signature.type_or_consts()?, own);
    let own: Vec<_> = params
        .lifetimes
        .iter()
        .map(|(id, it)| (id, it.clone()))
        .collect();
    assert_eq!(signature.lifetime_params()?, own);
    assert_eq!(signature.late_bound_lifetimes()?, own);
    assert_eq!(signature.early_bound_lifetimes()?, []);
    assert_eq!(signature.where_predicates()?, params.where_predicates);
    let second = LocalTypeOrConstParamId::from_raw(1);
    assert_eq!(signature.find_const_by_name(&"N".into())?, Some(second));
    assert_eq!(signature.find_type_by_name(&"N".into())?, None);
    assert_eq!(
        signature.find_lifetime_by_name(&"'a".into())?,
        Some(own[0].0)
    );
    assert_eq!(
        signature.trait_self_param()?,
        Some(LocalTypeOrConstParamId::from_raw(0))
    );
    assert_eq!(signature.lifetime_param_idx(own[0].0)?, Some((0, true)));
    let text = "const fn f<'a, Self, const N: usize = 4>(Self)\nwhere\n    Self: Tr\n {...}\n";
    assert_eq!(signature.print(&Tables::new(), EDITION)?, text);
    assert_eq!(
        signature.print_as(FunctionId::from_raw(8), &Tables::new(), EDITION)?,
        text
    );

    let store = ExpressionStoreBuilder::new().finish()?;
    let data = FunctionData::new(
        "g".into(),
        vec![hir_expr_store::TypeRefId::from_raw(0)],
        None,
    );
    let refused = FunctionSignature::new(
        FunctionId::from_raw(0),
        store,
        GenericParams::default(),
        data,
    )
    .unwrap_err();
    assert_eq!(
        refused.error,
        HirError::Signature(SignatureFault::IdOutOfRange)
    );
    // What was refused is in hand, and its store may become something else.
    let id = PlainDef::TraitId(TraitId::from_raw(0));
    let plain = PlainSignature::new(id, refused.store, refused.parts.0, ())?;
    assert_eq!(
        plain.print(&Tables::new(), EDITION)?,
        "unimplemented TraitId(0)"
    );
    Ok(())
}

#[test]
fn what_a_text_looks_up_is_sent() -> Outcome {
    // A struct with a layout, whose parameter another signature names.
    let shape = FieldsShape::Tuple;
    let mut params = GenericParams::default();
    let local_id = params
        .type_or_consts
        .alloc(TypeOrConstParamData::TypeParamData(TypeParamData {
            name: Some("T".into()),
            default: None,
            provenance: TypeParamProvenance::TypeParamList,
        }));
    let id = StructId::from_raw(0);
    let data = StructData {
        name: "S".into(),
        is_fundamental: false,
        shape,
    };
    let structure =
        StructSignature::new(id, ExpressionStoreBuilder::new().finish()?, params, data)?;
    let mut tables = Tables::new();
    assert_eq!(structure.print(&tables, EDITION)?, "struct S<T>(...)\n;\n");
    tables.add_repr(
        id,
        Repr {
            c: true,
            ..Repr::default()
        },
    );
    assert_eq!(
        structure.print(&tables, EDITION)?,
        "#[repr(C)]\nstruct S<T>(...)\n;\n"
    );
    assert_eq!(
        structure.print(&Tables::new(), EDITION)?,
        "struct S<T>(...)\n;\n"
    );

    // A union whose field has that parameter as its type, in a store that a signature's lines would displace.
    let mut builder = ExpressionStoreBuilder::new();
    let parent = id.into();
    let param = TypeParamId(TypeOrConstParamId { parent, local_id });
    let ty = builder.alloc_type(TypeRef::TypeParam(param));
    let path = make::path_with_args("V", &[ty]);
    let expr = builder.alloc_expr(Expr::Path(path));
    let lang = builder.alloc_expr(Expr::Path(Path::LangItem(
        EnumVariantId::from_raw(1).into(),
        None,
    )));
    let root = make::tuple(&mut builder, &[expr, lang]);
    builder.push_root(root);
    let store = builder.finish()?;
    let signature = HirError::Missing(Missing::Signature(parent));
    assert_eq!(store.print_expr(root, &tables, EDITION), Err(signature));
    tables.add_signature(&structure);
    let name = HirError::Missing(Missing::Name(EnumVariantId::from_raw(1).into()));
    assert_eq!(store.print_expr(root, &tables, EDITION), Err(name.clone()));
    tables.add_name(EnumVariantId::from_raw(1), Some(&"Some".into()));
    tables.add_variant_parent(EnumVariantId::from_raw(1), EnumId::from_raw(0));
    tables.add_name(EnumId::from_raw(0), Some(&"Option".into()));
    let text = store.print_expr(root, &tables, EDITION)?;
    assert!(text.starts_with("(V::<T>, builtin#lang("), "{text}");
    assert_eq!(store.children(root)?, [expr, lang]);
    // A later name takes the place of the earlier one, and other tables have none.
    tables.add_name(EnumVariantId::from_raw(1), Some(&"Other".into()));
    assert!(store.print_expr(root, &tables, EDITION)?.contains("Other"));
    let mut copy = tables.clone();
    copy.add_name(EnumVariantId::from_raw(1), Some(&"Third".into()));
    assert!(store.print_expr(root, &copy, EDITION)?.contains("Third"));
    assert!(store.print_expr(root, &tables, EDITION)?.contains("Other"));
    assert!(store.print_expr(root, &Tables::new(), EDITION).is_err());
    tables.add_crate_name(CrateId::from_raw(0), None);
    assert_eq!(tables.crate_name(CrateId::from_raw(0)), Some(None));

    // A batch asks the same.
    let mut batch = Batch::of_store(&store).with_tables(&copy);
    let (text, children) = (batch.print_expr(root, EDITION), batch.children(root));
    let answers = batch.ask()?;
    assert!(answers.get(text)?.contains("Third"));
    assert_eq!(answers.get(children)?, [expr, lang]);
    Ok(())
}

#[test]
fn fields_and_raw_words_are_printed() -> Outcome {
    let mut builder = ExpressionStoreBuilder::new();
    let types = ["u8", "match"].map(|name| make::path_type(&mut builder, name));
    let field = |name: &str, type_ref, visibility| FieldData {
        name: name.into(),
        type_ref,
        visibility,
        is_unsafe: false,
        default_value: None,
    };
    let module = RawVisibility::Module(hir_expr_store::hir::ModPath::from_name("m".into()));
    let fields = vec![
        field("a", types[0], RawVisibility::PubCrate),
        field("b", types[1], module),
    ];
    let id = UnionId::from_raw(2);
    let fields = VariantFields::new(id, builder.finish()?, FieldsShape::Record, fields)?;
    let mut tables = Tables::new();
    tables.add_name(id, Some(&"U".into()));
    tables.set_raw_words(EDITION, vec!["match".into()]);
    let text = fields.print(&tables, EDITION)?;
    assert_eq!(
        text,
        "union U {\npub(crate) a: u8,\npub(in m) b: r#match,\n}\n"
    );
    assert!(!fields.print(&tables, Edition::Edition2018)?.contains("r#"));
    Ok(())
}

#[test]
fn stores_are_dropped_while_others_live() -> Outcome {
    let mut bodies = Vec::new();
    for _ in 0..20 {
        bodies.push(body()?);
    }
    // The sessions end in another order than they began.
    let kept = bodies.split_off(10);
    bodies.truncate(3);
    for (body, closure, _) in kept.iter().chain(&bodies) {
        assert_eq!(body.captures(*closure)?.len(), 1);
    }
    drop(kept);
    for (body, closure, _) in &bodies {
        assert_eq!(body.captures(*closure)?.len(), 1);
    }
    Ok(())
}

#[test]
fn threads_ask_stores_of_their_own_and_one_together() -> Outcome {
    let shared = Arc::new(body()?);
    let threads: Vec<_> = (0..8)
        .map(|_| {
            let shared = Arc::clone(&shared);
            thread::spawn(move || -> Result<(), HirError> {
                let (own, closure, tail) = body()?;
                for _ in 0..50 {
                    assert_eq!(own.captures(closure)?.len(), 1);
                    assert_eq!(own.scopes()?.chain(tail)?.len(), 2);
                    assert_eq!(shared.0.captures(shared.1)?.len(), 1);
                }
                Ok(())
            })
        })
        .collect();
    for thread in threads {
        thread.join().unwrap()?;
    }
    // A store moves to another thread, and is dropped there.
    let (moved, closure, _) = body()?;
    thread::spawn(move || assert!(moved.captures(closure).is_ok()))
        .join()
        .unwrap();
    Ok(())
}

#[test]
fn a_refused_store_is_asked_again() -> Outcome {
    let mut builder = ExpressionStoreBuilder::new();
    let x = make::bind(&mut builder, "x");
    let root = make::local(&mut builder, "x");
    builder.push_root(root);
    let refused = Body::new(
        f(),
        builder.finish()?,
        vec![Param::new(x), Param::new(x)],
        None,
    )
    .unwrap_err();
    assert_eq!(refused.params.len(), 2);
    assert_eq!(refused.store.scopes()?.binding_at(root)?, None);
    let body = Body::new(f(), refused.store, vec![Param::new(x)], None)?;
    assert_eq!(body.scopes()?.binding_at(root)?, body.bound_by(x));
    Ok(())
}

#[test]
fn lines_that_are_none_are_errors() -> Outcome {
    use hir_expr_store::lines::Session;
    let mut session = Session::open()?;
    assert_eq!(session.ask("nodes")?.len(), 1);
    let bad = HirError::Session(SessionError::BadLine("noise".into()));
    assert_eq!(session.ask("nodes\nnoise\nnodes\n").map(|_| ()), Err(bad));
    Ok(())
}

/// A session's answers fetched by buffers of each length are the answers.
#[test]
fn answers_are_fetched_by_any_buffer() -> Outcome {
    use hir_expr_store::lines::Session;
    let mut session = Session::open()?;
    session.ask("expr path a\nexpr ref 0\nroot 1\nbody FunctionId(0)\n")?;
    let text = b"chain 0\nprint-expr 1\nchain 7\nnodes";
    let mut whole = vec![0; 1000];
    let report = session.ask_into(text, &mut whole)?;
    whole.truncate(report.written);
    assert_eq!(report.written, report.length);
    for length in 1..whole.len() + 2 {
        let mut memory = vec![0xa5; length + 16];
        let mut came = Vec::new();
        let mut report = session.ask_into(text, &mut memory[..length])?;
        assert_eq!(report.length, whole.len());
        loop {
            assert_eq!(report.written, report.length.min(length));
            assert!(memory[length..].iter().all(|byte| *byte == 0xa5));
            came.extend_from_slice(&memory[..report.written]);
            if report.length == report.written {
                break;
            }
            report = session.fetch_into(&mut memory[..length]);
        }
        assert_eq!(came, whole, "{length}");
    }
    Ok(())
}
