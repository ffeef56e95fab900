// verdicts.js PAGE FILE COUNT SEED: what the script of a page says of random renames in its file, a line for each: `LINE:COLUMN NAME`, a tab,
// and what `hir-report FILE --renames` writes of it.
"use strict";
const fs = require("fs");

const [page, file, count, seed] = process.argv.slice(2);
const html = fs.readFileSync(page, "utf8");
const between = (text, start, end) => {
  const from = text.indexOf(start) + start.length;
  return text.slice(from, text.indexOf(end, from));
};
const functions = JSON.parse(between(html, '<script id="facts" type="application/json">', "</script>"));
const script = between(html, "<script>\n", "</script>");
const { NONE, nameOf, faultOf, warningsOf } = new Function(`${script}; return renames;`)();

// Numbers by a linear congruence, so that a seed gives the same renames everywhere.
let state = Number(seed);
const random = (below) => {
  state = (Math.imul(state, 1664525) + 1013904223) >>> 0;
  return Math.floor((state / 2 ** 32) * below);
};
const one = (items) => items[random(items.length)];

// The places of each binding's name in the source, as the page marks them, and whether it is that of a field too.
const lines = html.split("\n");
const marksOf = () => {
  const marks = new Map();
  for (const line of lines) {
    const number = /^(?:<pre id="source">|<\/span>)?<span class="l[^"]*" id="L(\d+)">/.exec(line);
    if (number) addMarks(marks, Number(number[1]), line.slice(number[0].length));
  }
  return marks;
};
const textOf = (html) => html.replaceAll("&lt;", "<").replaceAll("&gt;", ">").replaceAll("&quot;", '"').replaceAll("&amp;", "&");
const addMarks = (marks, number, rest) => {
  let column = 0;
  for (const [, text, tag] of rest.matchAll(/([^<]*)(<[^>]*>)?/g)) {
    const start = column;
    column += [...textOf(text)].length;
    const previous = addMarks.open;
    addMarks.open = tag && !tag.startsWith("</") ? tag : null;
    if (!previous) continue;
    const key = / data-b="([^"]*)"/.exec(previous) || / data-u="([^"]*)"/.exec(previous);
    const at = / data-at="([^"]*)"/.exec(previous);
    if (at) marks.set(`at ${at[1]}`, { number, start });
    if (!key) continue;
    const isUse = !/ data-b=/.test(previous);
    const [f, id] = key[1].split(".").map(Number);
    const binding = isUse ? functions[f].uses[id][1] : id;
    const field = / data-f="([^"]*)"/.exec(previous);
    const its = `${f}.${binding}`;
    if (!marks.has(its)) marks.set(its, []);
    marks.get(its).push({ number, start, end: column, text: textOf(text), field: field && field[1] });
  }
};
const marks = marksOf();

const place = (line, column) => `${line}:${column}`;
const editsOf = (key, name) => {
  const edits = [];
  for (const { number, start, end, text, field } of marks.get(key)) {
    if (field) {
      const at = marks.get(`at ${field}`);
      edits.push([at.number, at.start, at.start, `${text}: `]);
    }
    edits.push([number, start, end, name]);
  }
  edits.sort((a, b) => a[0] - b[0] || a[1] - b[1] || a[2] - b[2]);
  return edits.map(([number, start, end, text]) => `${place(number, start + 1)}-${place(number, end + 1)}=${text}`);
};

// As `hir-report --renames` writes it.
const said = (f, id, name) => {
  const facts = functions[f];
  const fault = faultOf(facts, id, nameOf(name));
  const usage = fault && fault.usage !== NONE ? place(...facts.uses[fault.usage].slice(3)) : "-";
  const other = fault && fault.other !== NONE && facts.bindings[fault.other].length > 2 ? place(...facts.bindings[fault.other].slice(2)) : "-";
  const verdict = fault ? `${fault.reason} ${usage} ${other}` : "accepted";
  return [verdict, warningsOf(facts, id, nameOf(name)).length, ...editsOf(`${f}.${id}`, name)].join("\t");
};

const named = functions.flatMap((facts, f) => facts.bindings.map(([, , line, column], id) => ({ f, id, line, column })));
const isSelf = ({ f, id }) => functions[f].bindings[id][0] === "self";
// Of `self` there is one thing to say, so it is asked of seldom.
const written = named.filter((it) => it.line !== undefined);
const bindings = written.filter((it) => !isSelf(it));
const selves = written.filter(isSelf);
const ofFunction = ({ f }) => {
  const { bindings, uses, macros, items } = functions[f];
  const names = [...bindings, ...uses, ...macros, ...items].map(([name]) => name);
  return names.filter((name) => nameOf(name) !== null);
};
for (let at = 0; at < Number(count) && bindings.length > 0; at++) {
  const binding = one(selves.length > 0 && random(16) === 0 ? selves : bindings);
  const names = ofFunction(binding);
  const name = random(8) === 0 ? "occurs_nowhere" : one(names.length > 0 ? names : ["occurs_nowhere"]);
  console.log(`${place(binding.line, binding.column)} ${name}\t${said(binding.f, binding.id, name)}`);
}
