"use strict";
// Whether a variable may have a name, as the store's definition of a rename has it (crates/hir_usages/specs/Renames.antt): over the scopes
// and uses of a function that the page carries, and without the store. No part of this touches the page.
const renames = (() => {
  const NONE = -1;

  // The names by which the words of the language are no names of variables, in any edition.
  const KEYWORDS = new Set(
    ("_ abstract as async await become box break const continue crate do dyn else enum extern false final fn for if impl in let loop macro " +
      "match mod move mut override priv pub ref return Self self static struct super trait true try type typeof unsafe unsized use virtual " +
      "where while yield").split(" "),
  );
  const NEVER_RAW = new Set(["_", "crate", "self", "super", "Self"]);

  // The name that a text writes, without the `r#` of a raw one; null where it is no name.
  const nameOf = (text) => {
    const isRaw = text.startsWith("r#");
    const name = isRaw ? text.slice(2) : text;
    if (!/^[\p{XID_Start}_]\p{XID_Continue}*$/u.test(name)) return null;
    return (isRaw ? NEVER_RAW : KEYWORDS).has(name) ? null : name;
  };

  const nameAfter = (facts, id, binding, name) => (id === binding ? name : facts.bindings[id][0]);

  // What a name resolves to from a scope outwards, where the binding has the new name.
  const resolveAfter = (facts, scope, wanted, binding, name) => {
    for (let at = scope; at !== NONE; at = facts.scopes[at][0]) {
      const found = facts.scopes[at].slice(1).find((id) => nameAfter(facts, id, binding, name) === wanted);
      if (found !== undefined) return found;
    }
    return NONE;
  };

  // Another binding of the name in one frame with the binding.
  const otherBeside = (facts, binding, name) => {
    for (const [, ...ids] of facts.scopes) {
      if (!ids.includes(binding)) continue;
      const other = ids.find((id) => id !== binding && facts.bindings[id][0] === name);
      if (other !== undefined) return other;
    }
    const unseen = facts.beside.find(([id, its]) => id === binding && its === name);
    return unseen === undefined ? NONE : unseen[2];
  };

  // Whether a scope, or one around it, has the binding.
  const isAround = (facts, scope, binding) => {
    for (let at = scope; at !== NONE; at = facts.scopes[at][0]) {
      if (facts.scopes[at].indexOf(binding, 1) > 0) return true;
    }
    return false;
  };

  const fault = (reason, usage = NONE, other = NONE) => ({ reason, usage, other });

  // Why a binding may not have a name, with the use and the other binding in question; null where it may.
  const faultOf = (facts, binding, name) => {
    const [old, kinds] = facts.bindings[binding];
    if (kinds.includes("n")) return fault("NotBound");
    if (kinds.includes("s") || old === "self" || name === "self") return fault("IsSelf");
    const beside = otherBeside(facts, binding, name);
    if (beside !== NONE) return fault("SameFrame", NONE, beside);
    for (const [usage, [its, resolved, scope]] of facts.uses.entries()) {
      const isOwn = resolved === binding;
      const after = resolveAfter(facts, scope, isOwn ? name : its, binding, name);
      if (after === resolved) continue;
      return isOwn && after !== NONE ? fault("Hidden", usage, after) : fault("Captures", usage, resolved);
    }
    // A name in a constant is no use of a variable around it, and rustc refuses it all the same.
    for (const [usage, ...scopes] of facts.constants) {
      if (facts.uses[usage][0] === name && scopes.some((scope) => isAround(facts, scope, binding))) return fault("InConstant", usage);
    }
    return null;
  };

  const bare = (name) => (name.startsWith("r#") ? name.slice(2) : name);

  // What the store doesn't see of a rename: names in macro calls that are the old or the new one, items that have the new one, and syntax
  // that isn't known, each as [what, line, column].
  const warningsOf = (facts, binding, name) => {
    const old = facts.bindings[binding][0];
    const inMacros = facts.macros.filter(([its]) => [old, name].includes(bare(its)));
    const inItems = facts.items.filter(([its]) => its === name);
    return [
      ...inMacros.map(([its, line, column]) => [`a macro call has the name ${its}, which isn't renamed`, line, column]),
      ...inItems.map(([, line, column]) => ["an item has this name, and may not see there what it means", line, column]),
      ...facts.unknown.map(([line, column]) => ["what is written here isn't known, and may use the variable", line, column]),
    ];
  };

  return { NONE, nameOf, faultOf, warningsOf };
})();
