"use strict";
(() => {
  const { NONE, nameOf, faultOf, warningsOf } = renames;
  const byId = (id) => document.getElementById(id);
  const source = byId("source");
  const about = byId("about");
  const form = byId("rename");
  const input = byId("name");
  const verdict = byId("verdict");
  const facts = JSON.parse(byId("facts").textContent);
  const HELP = "Point at a name, at the bars of a closure or at a jump.";
  const KEYS = " Tab: the next · ← →: the other uses · Enter: a new name · F: functions · Esc: back";

  // 1. What is marked: by its binding, by its use, by its closure, by what a jump leaves, and where fields begin

  const group = (selector, key) => {
    const groups = new Map();
    for (const element of source.querySelectorAll(selector)) {
      const name = key(element);
      if (groups.has(name)) groups.get(name).push(element);
      else groups.set(name, [element]);
    }
    return groups;
  };
  const split = (key) => key.split(".").map(Number);
  const bindingOf = (element) => {
    if (element.dataset.b) return element.dataset.b;
    if (!element.dataset.u) return null;
    const [at, usage] = split(element.dataset.u);
    const id = facts[at].uses[usage][1];
    return id === NONE ? null : `${at}.${id}`;
  };
  const byBinding = group("[data-b], [data-u]", bindingOf);
  const byUse = group("[data-u]", (element) => element.dataset.u);
  const byClosure = group("[data-k]", (element) => element.dataset.k);
  const byTarget = group("[data-j]", (element) => element.dataset.j);
  const fieldStarts = group("[data-at]", (element) => element.dataset.at);
  const MARKS = ".d, .u, .c, .j";
  for (const element of source.querySelectorAll(MARKS)) element.tabIndex = 0;

  // What belongs together with an element, in the order of the source.
  const related = (element) => {
    const { k, c, j } = element.dataset;
    const binding = bindingOf(element);
    if (binding !== null) return byBinding.get(binding);
    if (j) return byTarget.get(j);
    if (!k) return [element];
    const captured = c.split(" ").flatMap((key) => byBinding.get(key) || []);
    return [...byClosure.get(k), ...captured];
  };

  // 2. What is said

  const lineOf = (element) => Number(element.closest(".l").id.slice(1));
  const count = (number, one, many) => (number === 1 ? `1 ${one}` : `${number} ${many}`);

  const usesOf = (at, id) => facts[at].uses.filter(([, its]) => its === id).length;

  const aboutBinding = (key) => {
    const [at, id] = split(key);
    const [name, kinds, line] = facts[at].bindings[id];
    const uses = usesOf(at, id);
    const what = kinds.includes("p") ? "parameter" : "variable";
    const where = line === undefined ? "" : ` of line ${line}`;
    const none = kinds.includes("m") ? "used in a macro call, perhaps" : "nothing uses it";
    return `${name}: ${what}${where}, ${uses ? count(uses, "use", "uses") : none}`;
  };

  const functionOf = (element) => {
    const { b, u, k, j } = element.dataset;
    const key = b || u || k || j;
    return key ? facts[split(key)[0]].name : "";
  };

  const textOf = (element) => {
    const binding = bindingOf(element);
    const said = binding !== null ? aboutBinding(binding) : element.dataset.t || `${element.textContent}: no variable`;
    const name = functionOf(element);
    return name ? `${said} · in ${name}` : said;
  };

  // 3. What is lit: what is pointed at, else what is selected

  const keys = document.createElement("span");
  keys.className = "keys";
  keys.textContent = KEYS;
  let lit = [];
  let selected = null;
  const light = (element) => {
    for (const other of lit) other.classList.remove("lit", "at");
    lit = element ? related(element) : [];
    for (const other of lit) other.classList.add("lit");
    if (element) element.classList.add("at");
    if (element && !lit.includes(element)) lit = [...lit, element];
    if (element) about.replaceChildren(textOf(element));
    else about.replaceChildren(HELP, keys);
  };

  // 4. Renames

  const changed = [];
  const restore = () => {
    for (const [element, text] of changed.splice(0)) element.textContent = text;
    for (const element of source.querySelectorAll(".changed, .hit")) element.classList.remove("changed", "hit");
  };

  const write = (element, text) => {
    changed.push([element, element.textContent]);
    element.textContent = text;
    element.classList.add("changed");
  };

  // Shows the source as it would be.
  const preview = (elements, text) => {
    for (const element of elements) {
      const [start] = fieldStarts.get(element.dataset.f) || [];
      if (start) write(start, `${element.textContent}: `);
      write(element, text);
    }
  };

  const link = (line, column, element) => {
    const button = document.createElement("button");
    button.type = "button";
    button.className = "place";
    button.textContent = `${line}:${column}`;
    button.addEventListener("click", () => {
      const target = element || byId(`L${line}`);
      target.scrollIntoView({ block: "center", inline: "nearest" });
      if (element) element.classList.add("hit");
    });
    return button;
  };

  const placeOfUse = (at, usage) => {
    const [, , , line, column] = facts[at].uses[usage];
    const [element] = byUse.get(`${at}.${usage}`) || [];
    return link(line, column, element);
  };

  const placeOfBinding = (at, id) => {
    const [, , line, column] = facts[at].bindings[id];
    if (line === undefined) return "nowhere";
    const [element] = byBinding.get(`${at}.${id}`) || [];
    return link(line, column, element);
  };

  const code = (text) => {
    const element = document.createElement("code");
    element.textContent = text;
    return element;
  };

  // Why a binding may not have a name, as text and places.
  const conflict = (at, id, name, { reason, usage, other }) => {
    const old = code(facts[at].bindings[id][0]);
    switch (reason) {
      case "NotBound":
        return [old, " is in no scope."];
      case "IsSelf":
        return [code("self"), " has no other name."];
      case "SameFrame":
        return [old, " is bound together with ", code(name), " of ", placeOfBinding(at, other), "."];
      case "Hidden":
        return ["the use of ", old, " at ", placeOfUse(at, usage), " would resolve to ", code(name), " of ", placeOfBinding(at, other), "."];
      case "InConstant":
        return [code(name), " at ", placeOfUse(at, usage), " is in a constant, where ", old, " may not be used."];
      default: {
        const now = other === NONE ? ["no variable"] : [code(name), " of ", placeOfBinding(at, other)];
        return [code(name), " at ", placeOfUse(at, usage), " resolves to ", ...now, ", and would resolve to ", old, "."];
      }
    }
  };

  const hit = (at, { usage, other }) => {
    for (const element of (usage !== NONE && byUse.get(`${at}.${usage}`)) || []) element.classList.add("hit");
    const bound = (other !== NONE && byBinding.get(`${at}.${other}`)) || [];
    for (const element of bound.filter((it) => it.dataset.b)) element.classList.add("hit");
  };

  const say = (kind, ...parts) => {
    verdict.className = kind;
    verdict.replaceChildren(...parts);
  };

  // A warning in a line of its own.
  const warning = (...parts) => {
    const element = document.createElement("span");
    element.className = "warning";
    element.append(...parts);
    return element;
  };
  const aboutWarnings = (warnings) =>
    warnings.map(([what, line, column]) => warning("Warning at ", link(line, column), `: ${what}.`));

  const judge = () => {
    restore();
    const binding = selected ? bindingOf(selected) : null;
    const text = input.value.trim();
    if (binding === null || text === "") return say("", "");
    const name = nameOf(text);
    if (name === null) return say("no", code(text), " is no name of a variable.");
    const [at, id] = split(binding);
    const fault = faultOf(facts[at], id, name);
    if (fault !== null) {
      hit(at, fault);
      return say("no", "No: ", ...conflict(at, id, name, fault));
    }
    const elements = byBinding.get(binding);
    preview(elements, text);
    const upper = /^\p{Lu}/u.test(name) ? [warning("Warning: a pattern with the name of an item is no variable.")] : [];
    return say("yes", `Yes: ${count(elements.length, "place changes", "places change")}, and every name keeps its meaning.`,
      ...upper, ...aboutWarnings(warningsOf(facts[at], id, name)));
  };

  // 5. What is selected

  const select = (element) => {
    if (element !== selected) {
      selected = element;
      input.value = "";
      judge();
    }
    form.hidden = element === null || bindingOf(element) === null;
    light(element);
  };

  const marked = (event) => event.target.closest("[data-b], [data-u], [data-t]");
  // While a name is written, what is pointed at says nothing.
  const point = (element) => {
    if (input.value === "") light(element || selected);
  };
  source.addEventListener("mouseover", (event) => point(marked(event)));
  source.addEventListener("mouseleave", () => point(null));
  source.addEventListener("focusin", (event) => select(marked(event)));
  source.addEventListener("click", (event) => {
    if (!marked(event)) select(null);
  });

  // 6. Keys

  const step = (from, by) => {
    const all = related(from);
    const next = all[(all.indexOf(from) + by + all.length) % all.length];
    next.focus({ preventScroll: true });
    next.scrollIntoView({ block: "nearest", inline: "nearest" });
  };
  const STEPS = { ArrowRight: 1, ArrowDown: 1, ArrowLeft: -1, ArrowUp: -1 };
  const hasModifier = (event) => event.ctrlKey || event.altKey || event.metaKey;

  source.addEventListener("keydown", (event) => {
    const element = marked(event);
    if (!element || hasModifier(event)) return;
    if (event.key in STEPS) step(element, STEPS[event.key]);
    else if (event.key === "Enter" && !form.hidden) input.focus();
    else if (event.key === "Escape") {
      element.blur();
      select(null);
    } else return;
    event.preventDefault();
  });

  input.addEventListener("input", judge);
  form.addEventListener("submit", (event) => event.preventDefault());
  form.addEventListener("keydown", (event) => {
    if (event.key !== "Escape") return;
    input.value = "";
    judge();
    selected.focus();
  });

  // 7. The functions

  const list = byId("list");
  const find = byId("find");
  const show = (isOpen) => {
    document.body.classList.toggle("open", isOpen);
    list.setAttribute("aria-expanded", String(isOpen));
  };
  list.addEventListener("click", () => show(!document.body.classList.contains("open")));
  find.addEventListener("input", () => {
    const wanted = find.value.trim().toLowerCase();
    for (const entry of byId("functions").querySelectorAll("details")) {
      const name = entry.querySelector("summary").textContent.toLowerCase();
      entry.hidden = !name.includes(wanted);
    }
  });
  byId("functions").addEventListener("click", (event) => {
    if (event.target.closest("a")) show(false);
  });
  document.addEventListener("keydown", (event) => {
    const isWriting = event.target.closest("input");
    if (event.key === "f" && !isWriting && !hasModifier(event)) {
      show(true);
      find.focus();
      event.preventDefault();
    } else if (event.key === "Escape" && (event.target === find || document.body.classList.contains("open"))) {
      show(false);
      if (selected) selected.focus();
      else find.blur();
    }
  });

  light(null);
})();
