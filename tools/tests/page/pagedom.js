"use strict";
// Runs the program of a page without a browser, over as much of a document as it needs: `node pagedom.js PAGE LINE..` goes to each line of
// the log, and prints what stands at the top, which parts are hidden, what each terminal shows, and in which call each process waits.

const fs = require("fs");

class Element {
  constructor() {
    Object.assign(this, { children: [], attributes: {}, textContent: "", value: "", hidden: false, className: "", scrollHeight: 0, scrollWidth: 0, clientWidth: 0 });
  }
  get options() { return this.children; }
  get previousElementSibling() { return new Element(); }
  append(...more) { this.children.push(...more); }
  replaceChildren(...all) { this.children = all; }
  hasChildNodes() { return this.children.length > 0; }
  setAttribute(name, value) { this.attributes[name] = value; }
  getAttribute(name) { return name === "viewBox" ? "0 0 1000 500" : this.attributes[name]; }
  addEventListener() {}
  remove() {}
  focus() {}
  blur() {}
  shown() { return this.children.map((one) => typeof one === "string" ? one : one.textContent).join(""); }
}

const [, , name, ...lines] = process.argv;
const html = fs.readFileSync(name, "utf8");
const data = /<script type="text\/plain" id="data">([^<]*)<\/script>/.exec(html)[1];
const program = html.slice(html.lastIndexOf("<script>") + 8, html.lastIndexOf("</script>"));
const found = new Map();
const byId = (id) => found.get(id) || found.set(id, new Element()).get(id);
byId("data").textContent = data;
global.document = { getElementById: byId, querySelector: () => new Element(), querySelectorAll: () => [], createElement: () => new Element(),
                    createElementNS: () => new Element(), addEventListener() {}, body: new Element() };
global.window = { addEventListener() {} };
global.location = { hash: "" };
global.history = { replaceState() {} };
(0, eval)(program);

function wait() {
  if (!window.page) return setTimeout(wait, 10);
  const { page } = window, told = [];
  for (const line of lines.map(Number)) {
    const terminals = page.run.head.terminals.map((_, which) => {
      byId("terminal").value = String(which);
      page.go(line);
      return byId("term").shown();
    });
    const calls = byId("ps").children.slice(1).map((row) => row.children.at(-1).textContent);
    told.push({ line, head: byId("head").textContent, terminals, calls });
  }
  console.log(JSON.stringify({ told, note: byId("note").textContent, options: byId("terminal").children.map((one) => String(one.textContent)),
                               isHidden: ["p-call", "of-memory", "which"].map((id) => byId(id).hidden) }));
  process.exit(0);
}
wait();
