// node --experimental-websocket tests/browser.js PROGRAM FILE.rs: tries the page of a file in Chromium.
//
// At 400 and 1,600 pixels nothing is wider than the page. Tab goes from name to name, arrows to the other uses and back, Enter to the field,
// Esc back. For variables of the file and names of it, what the page shows as the source is what `PROGRAM FILE.rs --rename` writes, or the
// source as it is where that refuses; so this asks PROGRAM many times. Status 1 where something differs.
"use strict";
const { spawn, spawnSync } = require("child_process");
const fs = require("fs");
const os = require("os");
const path = require("path");

const [program, file] = process.argv.slice(2);
const room = fs.mkdtempSync(path.join(os.tmpdir(), "hir-browser-"));
const page = path.join(room, "page.html");
const MOST = 200;

// A tab of a browser of its own, over the DevTools protocol.
class Tab {
  static async open() {
    const words = ["--headless=new", "--no-sandbox", "--disable-gpu", "--remote-debugging-port=0", `--user-data-dir=${room}/profile`];
    const browser = spawn("chromium", [...words, "about:blank"], { stdio: ["ignore", "ignore", "pipe"] });
    const port = await new Promise((found) => {
      let said = "";
      browser.stderr.on("data", (text) => {
        said += text;
        const match = /ws:\/\/127\.0\.0\.1:(\d+)\//.exec(said);
        if (match) found(match[1]);
      });
    });
    const tabs = await (await fetch(`http://127.0.0.1:${port}/json`)).json();
    const socket = new WebSocket(tabs.find((tab) => tab.type === "page").webSocketDebuggerUrl);
    await new Promise((open) => socket.addEventListener("open", open));
    const tab = new Tab(browser, socket);
    for (const domain of ["Page", "Runtime", "Log"]) await tab.send(`${domain}.enable`);
    await tab.send("Emulation.setFocusEmulationEnabled", { enabled: true });
    return tab;
  }

  constructor(browser, socket) {
    Object.assign(this, { browser, socket, waiting: new Map(), errors: [] });
    socket.addEventListener("message", ({ data }) => {
      const { id, method, params, result, error } = JSON.parse(data);
      if (id) this.waiting.get(id)(error ? Promise.reject(new Error(error.message)) : result);
      else if (method === "Runtime.exceptionThrown" || params?.entry?.level === "error") this.errors.push(JSON.stringify(params));
    });
  }

  send(method, params = {}) {
    const id = this.waiting.size + 1;
    return new Promise((resolve) => {
      this.waiting.set(id, resolve);
      this.socket.send(JSON.stringify({ id, method, params }));
    });
  }

  async run(expression) {
    const { result, exceptionDetails } = await this.send("Runtime.evaluate", { expression, returnByValue: true });
    if (exceptionDetails) throw new Error(exceptionDetails.exception.description);
    return result.value;
  }

  async show(width) {
    await this.send("Emulation.setDeviceMetricsOverride", { width, height: 900, deviceScaleFactor: 1, mobile: width < 600 });
    await this.send("Page.navigate", { url: `file://${page}` });
    while (!(await this.run("document.readyState === 'complete' && document.getElementById('facts') !== null"))) {
      await new Promise((later) => setTimeout(later, 100));
    }
  }

  async press(key) {
    const code = { Tab: 9, Enter: 13, Escape: 27, ArrowLeft: 37, ArrowRight: 39 }[key] || key.toUpperCase().charCodeAt(0);
    const text = key === "Enter" ? "\r" : key.length === 1 ? key : undefined;
    const event = { key, windowsVirtualKeyCode: code, text };
    await this.send("Input.dispatchKeyEvent", { type: "keyDown", ...event });
    await this.send("Input.dispatchKeyEvent", { type: "keyUp", key, windowsVirtualKeyCode: code });
  }

  close() {
    this.browser.kill("SIGKILL");
  }
}

let failures = 0;
const check = (what, isGood, ...more) => {
  if (isGood) return;
  failures += 1;
  console.log(`not so: ${what}`, ...more);
};

const widths = async (tab) => {
  for (const width of [400, 1600]) {
    await tab.show(width);
    const wide = await tab.run("document.documentElement.scrollWidth");
    check(`the page of ${width} pixels fits`, wide <= width, wide);
  }
};

const keys = async (tab) => {
  const at = () => tab.run("(() => { const e = document.activeElement; return e.id || (e.dataset.b && `b${e.dataset.b}`) || (e.dataset.u && `u${e.dataset.u}`) || e.tagName; })()");
  const seen = [];
  for (let step = 0; step < 3; step++) {
    await tab.press("Tab");
    seen.push(await at());
  }
  check("Tab goes from name to name", new Set(seen).size === 3 && seen.every((it) => /^[bu]\d+\.\d+$/.test(it)), seen);
  await tab.run("[...document.querySelectorAll('#source .d')].find((e) => e.dataset.b).focus()");
  const first = await at();
  await tab.press("ArrowRight");
  await tab.press("ArrowLeft");
  check("an arrow goes back to where the other came from", (await at()) === first, first, await at());
  await tab.press("Enter");
  check("Enter goes to the field", (await at()) === "name", await at());
  await tab.press("Escape");
  check("Esc goes back to the name", (await at()) === first, await at());
  await tab.press("Escape");
  check("Esc leaves it", (await at()) === "BODY", await at());
  await tab.press("f");
  check("F goes to the functions", (await at()) === "find", await at());
};

// The place and the name of the variable of this number, which is then selected.
const SELECT = (number) => `(() => {
  const element = document.querySelectorAll("#source .d")[${number}];
  element.focus();
  let column = 1;
  for (let before = element.previousSibling; before; before = before.previousSibling) column += [...before.textContent].length;
  return [element.closest(".l").id.slice(1) + ":" + column, element.textContent];
})()`;
const WRITE = (name) => `(() => {
  const field = document.getElementById("name");
  field.value = ${JSON.stringify(name)};
  field.dispatchEvent(new Event("input"));
  return [document.getElementById("verdict").className, document.getElementById("source").textContent];
})()`;

const renames = async (tab) => {
  const source = fs.readFileSync(file, "utf8");
  const count = await tab.run("document.querySelectorAll('#source .d').length");
  const counts = { yes: 0, no: 0 };
  const step = Math.max(1, Math.ceil(count / MOST));
  let last = "occurs_nowhere";
  for (let number = 0; number < count; number += step) {
    const [place, old] = await tab.run(SELECT(number));
    for (const name of ["r#fn", last]) {
      const [verdict, shown] = await tab.run(WRITE(name));
      const said = spawnSync(program, [file, "--rename", place, name], { encoding: "utf8" });
      const wanted = said.status === 0 ? ["yes", said.stdout] : ["no", source];
      check(`${place} ${old} to ${name}`, said.status === 2 || (verdict === wanted[0] && shown === wanted[1]), verdict, said.stderr);
      counts[verdict] += 1;
      await tab.run(WRITE(""));
    }
    last = old;
  }
  check("after all the page is the source", (await tab.run("document.getElementById('source').textContent")) === source);
  console.log(`${file}: ${counts.yes} renames shown, ${counts.no} refused`);
};

const main = async () => {
  const made = spawnSync(program, [file, "--html", page], { stdio: "inherit" });
  check("the page is written", made.status === 0);
  const tab = await Tab.open();
  try {
    await widths(tab);
    await keys(tab);
    await renames(tab);
    check("nothing is thrown or refused", tab.errors.length === 0, tab.errors);
  } finally {
    tab.close();
  }
};

main().then(
  () => process.exit(failures === 0 ? 0 : 1),
  (error) => {
    console.log(error);
    process.exit(1);
  },
);
