//! Why a builder, a body or a signature is refused, and what tables lack.

use crate::def::{
    DefWithBodyId, GenericDefId, LifetimeParamId, NamedDef, TypeOrConstParamId, TypeParamId,
    VariantId,
};
use crate::ids::{BlockId, CrateId, EnumVariantId, ExprId, Id, PatId, TypeRefId};
use crate::notation::{Line, Notation, Words};
use std::error::Error;
use std::fmt;

/// A node that has a parent and children, and that a fault may name.
#[derive(Clone, Copy, PartialEq, Eq, PartialOrd, Ord, Hash, Debug)]
#[cfg_attr(hir_serde, derive(serde::Serialize, serde::Deserialize))]
pub enum NodeId {
    /// An expression.
    Expr(ExprId),
    /// A pattern.
    Pat(PatId),
    /// A type.
    TypeRef(TypeRefId),
}

impl From<ExprId> for NodeId {
    fn from(id: ExprId) -> NodeId {
        NodeId::Expr(id)
    }
}

impl From<PatId> for NodeId {
    fn from(id: PatId) -> NodeId {
        NodeId::Pat(id)
    }
}

impl From<TypeRefId> for NodeId {
    fn from(id: TypeRefId) -> NodeId {
        NodeId::TypeRef(id)
    }
}

/// The id, as `ExprId(3)`.
impl fmt::Display for NodeId {
    fn fmt(&self, f: &mut fmt::Formatter<'_>) -> fmt::Result {
        match self {
            NodeId::Expr(id) => fmt::Display::fmt(id, f),
            NodeId::Pat(id) => fmt::Display::fmt(id, f),
            NodeId::TypeRef(id) => fmt::Display::fmt(id, f),
        }
    }
}

/// Why a builder is refused: the first of its faults, in this order. The store's crate says more of each.
#[derive(Clone, Copy, PartialEq, Eq, Debug)]
pub enum FinishFault {
    /// An expression, a pattern, a binding or a label exists, and no list of roots was begun.
    NoRoots,
    /// The node names a node that isn't there.
    IdOutOfRange(NodeId),
    /// A bound in the node names as a path a type that isn't one.
    NotAPath(NodeId),
    /// The node is a function type that lacks the return type.
    NoReturnType(NodeId),
    /// Generic arguments in the node have `has_self_type`, and are empty.
    NoSelfArgument(NodeId),
    /// A `Normal` path in the node doesn't have one place for arguments for each segment.
    ArgumentLists(NodeId),
    /// The first edge whose child is the child of an earlier edge leads to this node.
    SharedChild(NodeId),
    /// The least node that is on a cycle, or below one.
    Cycle(NodeId),
    /// The root of this index isn't an expression of the arena.
    RootOutOfRange(usize),
    /// An earlier root is the same.
    RootRepeated(usize),
    /// The root lies under another.
    RootUnderRoot(usize),
    /// An end of the root is past its arena, or less than that of the root before.
    RootEnds(usize),
}

/// Why a body is refused: the first of its faults, in this order. A parameter is named by its index.
#[derive(Clone, Copy, PartialEq, Eq, Debug)]
pub enum BodyFault {
    /// The store has no root.
    NoRoot,
    /// A binding of the self parameter isn't there.
    SelfOutOfRange,
    /// A pattern of the parameter isn't there.
    ParamOutOfRange(usize),
    /// The parameter's formal pattern is that of an earlier one.
    ParamRepeated(usize),
    /// The parameter's formal pattern is properly under another formal, or under the last root.
    ParamUnder(usize),
    /// The last root is under a formal.
    RootInParam,
}

/// What the tables lack.
#[derive(Clone, Copy, PartialEq, Eq, Hash, Debug)]
pub enum Missing {
    /// Whether the definition has a name, and which.
    Name(NamedDef),
    /// The enum of the variant.
    Variant(EnumVariantId),
    /// What the crate is called.
    Crate(CrateId),
    /// The signature of the definition.
    Signature(GenericDefId),
    /// The body of the definition.
    Body(DefWithBodyId),
    /// The fields of the struct, the union or the variant of an enum.
    Fields(VariantId),
    /// The type parameter among those of its parent.
    TypeParam(TypeParamId),
    /// The lifetime parameter among those of its parent.
    LifetimeParam(LifetimeParamId),
    /// The map of the block's definitions.
    DefMap(BlockId),
}

/// Why parts don't make a signature or the fields of a variant: the first of its faults, in this order.
#[derive(Clone, Copy, PartialEq, Eq, Debug)]
pub enum SignatureFault {
    /// A type, a lifetime or a constant that it names isn't in the store.
    IdOutOfRange,
    /// A bound of a predicate names a type that isn't a path.
    NotAPath,
}

/// What is wrong, in a sentence.
impl fmt::Display for FinishFault {
    fn fmt(&self, f: &mut fmt::Formatter<'_>) -> fmt::Result {
        match self {
            FinishFault::NoRoots => {
                write!(
                    f,
                    "there are nodes of a body, but no list of roots was begun"
                )
            }
            FinishFault::IdOutOfRange(node) => write!(f, "{node} names an id that doesn't exist"),
            FinishFault::NotAPath(node) => {
                write!(
                    f,
                    "{node} names as the path of a bound a type that isn't a path"
                )
            }
            FinishFault::NoReturnType(node) => {
                write!(f, "{node} is a function type without a return type")
            }
            FinishFault::NoSelfArgument(node) => {
                write!(f, "{node} has generic arguments that lack their self type")
            }
            FinishFault::ArgumentLists(node) => {
                write!(
                    f,
                    "{node} has a path without one list of arguments for each segment"
                )
            }
            FinishFault::SharedChild(node) => write!(f, "{node} is a child more than once"),
            FinishFault::Cycle(node) => write!(f, "{node} is on a cycle, or a descendant of one"),
            FinishFault::RootOutOfRange(index) => {
                write!(f, "root {index} is an expression that doesn't exist")
            }
            FinishFault::RootRepeated(index) => write!(f, "root {index} repeats an earlier root"),
            FinishFault::RootUnderRoot(index) => {
                write!(f, "root {index} is a descendant of another root")
            }
            FinishFault::RootEnds(index) => write!(
                f,
                "an end of root {index} is past its arena, or less than that of the root before"
            ),
        }
    }
}

/// What is wrong, in a sentence. Parameters are counted from 0.
impl fmt::Display for BodyFault {
    fn fmt(&self, f: &mut fmt::Formatter<'_>) -> fmt::Result {
        match self {
            BodyFault::NoRoot => write!(f, "the store of the body has no root"),
            BodyFault::SelfOutOfRange => {
                write!(f, "the self parameter has a binding that doesn't exist")
            }
            BodyFault::ParamOutOfRange(index) => {
                write!(f, "parameter {index} has a pattern that doesn't exist")
            }
            BodyFault::ParamRepeated(index) => {
                write!(
                    f,
                    "parameter {index} has the pattern of an earlier parameter"
                )
            }
            BodyFault::ParamUnder(index) => write!(
                f,
                "parameter {index} is a descendant of another parameter or of the last root"
            ),
            BodyFault::RootInParam => write!(f, "the last root is a descendant of a parameter"),
        }
    }
}

/// What is missing, in words.
impl fmt::Display for Missing {
    fn fmt(&self, f: &mut fmt::Formatter<'_>) -> fmt::Result {
        match self {
            Missing::Name(def) => write!(f, "no name of {def}"),
            Missing::Variant(id) => write!(f, "no enum of {id}"),
            Missing::Crate(id) => write!(f, "no name of {id}"),
            Missing::Signature(def) => write!(f, "no signature of {def}"),
            Missing::Body(def) => write!(f, "no body of {def}"),
            Missing::Fields(def) => write!(f, "no fields of {def}"),
            Missing::TypeParam(TypeParamId(id)) => {
                let number = id.local_id.into_raw();
                write!(f, "no type parameter {number} of {}", id.parent)
            }
            Missing::LifetimeParam(id) => {
                let number = id.local_id.into_raw();
                write!(f, "no lifetime parameter {number} of {}", id.parent)
            }
            Missing::DefMap(id) => write!(f, "no definition map of {id}"),
        }
    }
}

/// What is wrong, in a sentence.
impl fmt::Display for SignatureFault {
    fn fmt(&self, f: &mut fmt::Formatter<'_>) -> fmt::Result {
        match self {
            SignatureFault::IdOutOfRange => {
                write!(f, "the signature names an id that doesn't exist")
            }
            SignatureFault::NotAPath => {
                write!(
                    f,
                    "the signature names as the path of a bound a type that isn't a path"
                )
            }
        }
    }
}

macro_rules! errors {
    ($($name:ident)*) => {$(
        impl Error for $name {}
    )*};
}

errors! { FinishFault BodyFault SignatureFault Missing }

fn read_node(words: &mut Words<'_>) -> Option<NodeId> {
    words.expect(" ")?;
    let kind = words.keyword();
    words.expect("(")?;
    let number = words.number()?;
    words.expect(")")?;
    match kind {
        ExprId::NAME => Some(NodeId::Expr(ExprId::from_raw(number))),
        PatId::NAME => Some(NodeId::Pat(PatId::from_raw(number))),
        TypeRefId::NAME => Some(NodeId::TypeRef(TypeRefId::from_raw(number))),
        _ => None,
    }
}

impl NodeId {
    /// The node of `expr:E`, `pat:P` or `type:T`, which comes next.
    pub(crate) fn read_word(words: &mut Words<'_>) -> Option<NodeId> {
        let kind = words.keyword();
        words.expect(":")?;
        match kind {
            "expr" => Some(NodeId::Expr(words.id()?)),
            "pat" => Some(NodeId::Pat(words.id()?)),
            "type" => Some(NodeId::TypeRef(words.id()?)),
            _ => None,
        }
    }
}

/// `expr:E`, `pat:P` or `type:T`
impl Notation for NodeId {
    fn write(&self, line: &mut Line) {
        match self {
            NodeId::Expr(id) => line.word(format_args!("expr:{}", id.into_raw())),
            NodeId::Pat(id) => line.word(format_args!("pat:{}", id.into_raw())),
            NodeId::TypeRef(id) => line.word(format_args!("type:{}", id.into_raw())),
        }
    }

    fn read(words: &mut Words<'_>) -> Option<NodeId> {
        words.begin()?;
        NodeId::read_word(words)
    }
}

fn read_index(words: &mut Words<'_>) -> Option<usize> {
    words.expect(" ")?;
    usize::try_from(words.big()?).ok()
}

impl FinishFault {
    /// The fault of this text.
    pub(crate) fn from_text(text: &str) -> Option<FinishFault> {
        let mut words = Words::new(text);
        let words = &mut words;
        let fault = match words.keyword() {
            "NoRoots" => FinishFault::NoRoots,
            "IdOutOfRange" => FinishFault::IdOutOfRange(read_node(words)?),
            "NotAPath" => FinishFault::NotAPath(read_node(words)?),
            "NoReturnType" => FinishFault::NoReturnType(read_node(words)?),
            "NoSelfArgument" => FinishFault::NoSelfArgument(read_node(words)?),
            "ArgumentLists" => FinishFault::ArgumentLists(read_node(words)?),
            "SharedChild" => FinishFault::SharedChild(read_node(words)?),
            "Cycle" => FinishFault::Cycle(read_node(words)?),
            "RootOutOfRange" => FinishFault::RootOutOfRange(read_index(words)?),
            "RootRepeated" => FinishFault::RootRepeated(read_index(words)?),
            "RootUnderRoot" => FinishFault::RootUnderRoot(read_index(words)?),
            "RootEnds" => FinishFault::RootEnds(read_index(words)?),
            _ => return None,
        };
        words.is_end().then_some(fault)
    }
}

impl BodyFault {
    /// The fault of this text.
    pub(crate) fn from_text(text: &str) -> Option<BodyFault> {
        let mut words = Words::new(text);
        let words = &mut words;
        let fault = match words.keyword() {
            "NoRoot" => BodyFault::NoRoot,
            "SelfOutOfRange" => BodyFault::SelfOutOfRange,
            "ParamOutOfRange" => BodyFault::ParamOutOfRange(read_index(words)?),
            "ParamRepeated" => BodyFault::ParamRepeated(read_index(words)?),
            "ParamUnder" => BodyFault::ParamUnder(read_index(words)?),
            "RootInParam" => BodyFault::RootInParam,
            _ => return None,
        };
        words.is_end().then_some(fault)
    }
}

impl Missing {
    /// What is missing by this text, as `Missing(Name(FunctionId(0)))`.
    pub(crate) fn from_text(text: &str) -> Option<Missing> {
        let mut words = Words::new(text.strip_prefix("Missing(")?);
        let words = &mut words;
        let kind = words.keyword();
        words.expect("(")?;
        let missing = match kind {
            "Name" => Missing::Name(Notation::read(words)?),
            "Variant" => Missing::Variant(Notation::read(words)?),
            "Crate" => Missing::Crate(words.id()?),
            "Signature" => Missing::Signature(Notation::read(words)?),
            "Body" => Missing::Body(Notation::read(words)?),
            "Fields" => Missing::Fields(Notation::read(words)?),
            "TypeParam" => Missing::TypeParam(TypeParamId(TypeOrConstParamId {
                parent: Notation::read(words)?,
                local_id: words.next_id()?,
            })),
            "LifetimeParam" => Missing::LifetimeParam(LifetimeParamId {
                parent: Notation::read(words)?,
                local_id: words.next_id()?,
            }),
            "DefMap" => Missing::DefMap(words.id()?),
            _ => return None,
        };
        words.expect("))")?;
        words.is_end().then_some(missing)
    }
}

impl SignatureFault {
    /// The fault of this text.
    pub(crate) fn from_text(text: &str) -> Option<SignatureFault> {
        match text {
            "IdOutOfRange" => Some(SignatureFault::IdOutOfRange),
            "NotAPath" => Some(SignatureFault::NotAPath),
            _ => None,
        }
    }
}

#[cfg(test)]
mod tests {
    use super::{BodyFault, FinishFault, Missing, NodeId, SignatureFault};
    use crate::def::MacroId;
    use crate::def::{NamedDef, TypeOrConstParamId, TypeParamId};
    use crate::ids::{ExprId, LocalTypeOrConstParamId, MacroRulesId, PatId, StructId, TypeRefId};

    #[test]
    fn faults_are_read() {
        let expr = NodeId::Expr(ExprId::from_raw(0));
        let pat = NodeId::Pat(PatId::from_raw(7));
        let ty = NodeId::TypeRef(TypeRefId::from_raw(3));
        let texts = [
            ("NoRoots", FinishFault::NoRoots),
            ("IdOutOfRange ExprId(0)", FinishFault::IdOutOfRange(expr)),
            ("NotAPath TypeRefId(3)", FinishFault::NotAPath(ty)),
            ("NoReturnType TypeRefId(3)", FinishFault::NoReturnType(ty)),
            ("NoSelfArgument PatId(7)", FinishFault::NoSelfArgument(pat)),
            ("ArgumentLists PatId(7)", FinishFault::ArgumentLists(pat)),
            ("SharedChild ExprId(0)", FinishFault::SharedChild(expr)),
            ("Cycle PatId(7)", FinishFault::Cycle(pat)),
            ("RootOutOfRange 0", FinishFault::RootOutOfRange(0)),
            ("RootRepeated 5", FinishFault::RootRepeated(5)),
            ("RootUnderRoot 1", FinishFault::RootUnderRoot(1)),
            ("RootEnds 2", FinishFault::RootEnds(2)),
        ];
        for (text, fault) in texts {
            assert_eq!(FinishFault::from_text(text), Some(fault), "{text}");
        }
        assert_eq!(FinishFault::from_text("NoRoots 1"), None);
        assert_eq!(
            SignatureFault::from_text("NotAPath"),
            Some(SignatureFault::NotAPath)
        );
    }

    #[test]
    fn faults_of_bodies_are_read() {
        let texts = [
            ("NoRoot", BodyFault::NoRoot),
            ("SelfOutOfRange", BodyFault::SelfOutOfRange),
            ("ParamOutOfRange 1", BodyFault::ParamOutOfRange(1)),
            ("ParamRepeated 4", BodyFault::ParamRepeated(4)),
            ("ParamUnder 0", BodyFault::ParamUnder(0)),
            ("RootInParam", BodyFault::RootInParam),
        ];
        for (text, fault) in texts {
            assert_eq!(BodyFault::from_text(text), Some(fault), "{text}");
        }
        assert_eq!(BodyFault::from_text("ParamUnder"), None);
    }

    /// Texts of the library, and what each says.
    const MISSING: [(&str, &str); 9] = [
        (
            "Missing(Name(MacroRulesId(0)))",
            "no name of MacroRulesId(0)",
        ),
        (
            "Missing(Variant(EnumVariantId(1)))",
            "no enum of EnumVariantId(1)",
        ),
        ("Missing(Crate(2))", "no name of CrateId(2)"),
        (
            "Missing(Signature(StructId(3)))",
            "no signature of StructId(3)",
        ),
        (
            "Missing(Body(EnumVariantId(4)))",
            "no body of EnumVariantId(4)",
        ),
        ("Missing(Fields(UnionId(5)))", "no fields of UnionId(5)"),
        (
            "Missing(TypeParam(StructId(6) 1))",
            "no type parameter 1 of StructId(6)",
        ),
        (
            "Missing(LifetimeParam(TraitId(7) 2))",
            "no lifetime parameter 2 of TraitId(7)",
        ),
        ("Missing(DefMap(8))", "no definition map of BlockId(8)"),
    ];

    #[test]
    fn what_is_missing_is_read() {
        for (text, words) in MISSING {
            let missing = Missing::from_text(text);
            assert_eq!(
                missing.map(|it| it.to_string()).as_deref(),
                Some(words),
                "{text}"
            );
        }
        assert_eq!(Missing::from_text("Missing(Name(ImplId(0)))"), None);
        let name = NamedDef::MacroId(MacroId::MacroRulesId(MacroRulesId::from_raw(0)));
        assert_eq!(Missing::from_text(MISSING[0].0), Some(Missing::Name(name)));
        let param = TypeParamId(TypeOrConstParamId {
            parent: crate::def::AdtId::StructId(StructId::from_raw(6)).into(),
            local_id: LocalTypeOrConstParamId::from_raw(1),
        });
        assert_eq!(
            Missing::from_text(MISSING[6].0),
            Some(Missing::TypeParam(param))
        );
    }
}
