"use strict";
// The program of a page that tools/page.py makes: docs/tools/page.md. Everything that comes from a run is put into the page as text.

const CHOICE = 1, CALL = 2, SECOND = 4;   // what a line of the log is
const APART = 2048;                       // lines between two states of the panels that are kept
const AROUND = 7;                         // lines that are shown before and after the one at the cursor
const KINDS = { choice: CHOICE, call: CALL, second: SECOND };
const MOST_SHOWN = 100000;                // bytes of a terminal that are shown, from its end
const HIDDEN = "hidden in the quiz: it is known after the next choice alone";
const WAITS = 10, NUMBER = 2;             // cells of a row of the table of processes
const CALLS = { wait: "wait", keys: "read", read: "read", show: "write", write: "write", tout: "sleep" };  // by what is waited for
const BEGUN = " has begun, and isn't done", CALL_OF = /^call +/;  // of the row of a process that tells its call

const $ = (id) => document.getElementById(id);

/** The bytes of a text in base 64. */
function bytesOf(text) {
  const letters = atob(text), bytes = new Uint8Array(letters.length);
  for (let at = 0; at < letters.length; at++) bytes[at] = letters.charCodeAt(at);
  return bytes;
}

/** The bytes that were packed. They come in pieces, which are put together here: streams of the browser's own take much longer. */
async function inflated(packed) {
  const { readable, writable } = new DecompressionStream("deflate");
  const writer = writable.getWriter(), reader = readable.getReader(), pieces = [];
  const written = Promise.all([writer.write(packed), writer.close()]);
  for (let piece = await reader.read(); !piece.done; piece = await reader.read()) pieces.push(piece.value);
  await written;
  const bytes = new Uint8Array(pieces.reduce((sum, one) => sum + one.length, 0));
  let at = 0;
  for (const one of pieces) {
    bytes.set(one, at);
    at += one.length;
  }
  return bytes.buffer;
}

/** The numbers and texts of the run, unpacked. */
async function unpacked(text) {
  const buffer = await inflated(bytesOf(text.trim()));
  const size = new DataView(buffer).getUint32(0, true);
  const head = JSON.parse(new TextDecoder().decode(new Uint8Array(buffer, 4, size)));
  const types = { 1: Uint8Array, 2: Uint16Array, 4: Uint32Array };
  const columns = {};
  for (const [name, [at, count, width]] of Object.entries(head.columns)) {
    columns[name] = new types[width](buffer, 4 + size + at, count);
  }
  return { head, columns };
}

/** A run: at each line of the log, counted from 1 on, the texts of all rows of all panels. */
class Run {
  constructor({ head, columns }) {
    Object.assign(this, { head, columns, lines: head.lines, texts: head.texts });
    this.starts = new Uint32Array(this.lines + 1);
    for (let line = 0; line < this.lines; line++) this.starts[line + 1] = this.starts[line] + columns.counts[line];
    this.kept = [new Uint32Array(head.fields)];
    this.rows = new Uint32Array(head.fields);
    this.at = 0;
  }

  /** Goes to a line: from the nearest state that is kept, or from where it is, by the changes between. */
  seek(line) {
    if (line < this.at || line - this.at > APART) {
      const place = Math.min(Math.floor(line / APART), this.kept.length - 1);
      if (line < this.at || place * APART > this.at) {
        this.rows = this.kept[place].slice();
        this.at = place * APART;
      }
    }
    const { fields, values } = this.columns;
    while (this.at < line) {
      for (let one = this.starts[this.at]; one < this.starts[this.at + 1]; one++) this.rows[fields[one]] = values[one];
      this.at++;
      if (this.at % APART === 0 && this.kept.length === this.at / APART) this.kept.push(this.rows.slice());
    }
  }

  /** The rows of a panel at the line that was gone to last. */
  panel(name) {
    const [first, count] = this.head.places[name];
    const found = [];
    for (let row = first; row < first + count; row++) found.push(this.texts[this.rows[row]]);
    return found;
  }

  shown(name) {
    return this.panel(name).filter((text) => text);
  }

  one(name) {
    return this.texts[this.rows[this.head.places[name][0]]];
  }

  /** The first row of a panel at a line that isn't before that one. */
  after(name, line) {
    const field = this.head.places[name][0], { fields, values } = this.columns;
    for (let one = this.starts[line] - 1; one >= this.starts[this.at]; one--) if (fields[one] === field) return this.texts[values[one]];
    return this.one(name);
  }

  words(line) {
    return this.texts[this.columns.words[line - 1]];
  }

  raw(line) {
    return this.texts[this.columns.raw[line - 1]];
  }

  is(line, kind) {
    return (this.columns.kinds[line - 1] & kind) !== 0;
  }

  /** The moment of a line: its slot, and whether it is the line's own, or one that was looked at before. */
  moment(line) {
    const place = this.columns.moments[line - 1];
    if (!this.head.isRun || !place) return null;
    const { slots, ends } = this.columns;
    const end = ends[place - 1];
    return { slot: slots[place - 1], isExact: line <= end, isLast: line >= end, place, end };
  }

  /** How many bytes a terminal has shown at the moment at this place; none before the first. */
  shownAt(place, which) {
    return place ? this.columns.shown[(place - 1) * this.head.terminals.length + which] : 0;
  }

  /** The first line with which the moment at this place came. */
  first(place) {
    let low = 1, high = this.lines;
    while (low < high) {
      const middle = (low + high) >> 1;
      if (this.columns.moments[middle - 1] < place) low = middle + 1; else high = middle;
    }
    return low;
  }

  /** The next line of a kind, or the last before; the end that is nearer where there is none. */
  next(line, kind, by) {
    let one = line + by;
    while (one > 1 && one < this.lines && !this.is(one, kind)) one += by;
    return Math.max(1, Math.min(one, this.lines));
  }

  /** Whether each text is about a word: that with which lines of the log begin, a number of a process, or any other piece of text. */
  about(word) {
    const low = word.toLowerCase();
    if (this.texts.some((text) => text === low || text.startsWith(low + " ") && this.isRaw(text))) {
      return this.texts.map((text) => this.isRaw(text) && text.split(" ")[0] === low);
    }
    if (!/^[0-9]+$/.test(word)) return this.texts.map((text) => text.toLowerCase().includes(low));
    const number = new RegExp(`\\bprocess ${word}\\b|^[0-9 ]*\\[${word}[ \\]]`);
    return this.texts.map((text) => !this.isRaw(text) && number.test(text));
  }

  /** Whether a text is a line of the log as it stands there. */
  isRaw(text) {
    this.raws = this.raws || new Set(Array.from(new Set(this.columns.raw), (one) => this.texts[one]));
    return this.raws.has(text);
  }

  /** The last line, up to one, that gave the image of the process in an entry of the table the place that it has then; or 0. */
  placed(slot, line) {
    const moves = new RegExp(`^((in|out|image|exit) ${slot} |fork [0-9]+ ${slot} |size ${slot} [0-9]+ [as]${slot === 1 ? "|boot " : ""})`);
    const has = this.texts.map((text) => moves.test(text));
    while (line && !has[this.columns.raw[line - 1]]) line--;
    return line;
  }

  /** The next line about a word, or the last before, or 0. */
  search(word, line, by) {
    const has = this.about(word);
    const { words, raw, fields, values } = this.columns;
    const call = this.head.places.call[0];
    const isThere = (one) => {
      if (has[words[one]] || has[raw[one]]) return true;
      for (let at = this.starts[one]; at < this.starts[one + 1]; at++) if (fields[at] === call && has[values[at]]) return true;
      return false;
    };
    for (let one = line - 1 + by; one >= 0 && one < this.lines; one += by) if (isThere(one)) return one + 1;
    return 0;
  }
}

/** Bytes of a terminal as pieces: texts, and bytes without a sign as their octal numbers. A return just before a new line shows nothing. */
function typed(bytes) {
  const pieces = [];
  let text = "";
  bytes.forEach((byte, at) => {
    if (byte === 13 && bytes[at + 1] === 10) return;
    if (byte === 9 || byte === 10 || byte >= 32 && byte < 127) {
      text += String.fromCharCode(byte);
      return;
    }
    const code = document.createElement("span");
    code.className = "control";
    code.textContent = "\\" + byte.toString(8).padStart(3, "0");
    pieces.push(text, code);
    text = "";
  });
  return [...pieces, text];
}

/** What the page shows, and where one is in it. */
class Page {
  constructor(run) {
    this.run = run;
    this.line = 1;
    this.isQuiz = false;
    this.timer = null;
    this.mark = this.cursorOf(document.querySelector("#paper svg"));
    this.begin();
  }

  // the timeline

  cursorOf(svg) {
    const make = (name, attributes) => {
      const one = document.createElementNS("http://www.w3.org/2000/svg", name);
      for (const [key, value] of Object.entries(attributes)) one.setAttribute(key, value);
      svg.append(one);
      return one;
    };
    const [, , width, height] = svg.getAttribute("viewBox").split(" ").map(Number);
    this.width = width;
    svg.setAttribute("role", "img");
    svg.setAttribute("aria-label", "Lanes of the processes, and what holds core and the swap area");
    this.veil = make("rect", { y: 44, height: height - 44, fill: "#fff", visibility: "hidden" });
    const band = make("rect", { y: 44, height: height - 64, fill: "#0048c8", "fill-opacity": 0.35, stroke: "#0048c8" });
    const to = (event) => {
      const point = new DOMPoint(event.clientX, event.clientY).matrixTransform(svg.getScreenCTM().inverse());
      const share = (point.x - this.run.head.left_of_lanes) / this.run.head.lanes;
      this.go(Math.floor(share * this.run.lines) + 1);
    };
    svg.addEventListener("pointerdown", (event) => { svg.setPointerCapture(event.pointerId); to(event); });
    svg.addEventListener("pointermove", (event) => { if (event.buttons & 1) to(event); });
    return band;
  }

  drawCursor() {
    const { left_of_lanes: left, lanes } = this.run.head;
    const x = left + (this.line - 1) * lanes / this.run.lines, wide = Math.max(lanes / this.run.lines, 2);
    this.mark.setAttribute("x", x);
    this.mark.setAttribute("width", wide);
    this.veil.setAttribute("x", x + wide);
    this.veil.setAttribute("width", Math.max(left + lanes - x - wide, 0) + 2);
    this.veil.setAttribute("visibility", this.isQuiz ? "visible" : "hidden");
    this.showCursor((x + wide / 2) / this.width);
  }

  /** Where the picture is wider than its place, the part of it is shown in which the cursor is: it is at this share of the width. */
  showCursor(share) {
    const paper = $("paper"), at = share * paper.scrollWidth, room = paper.clientWidth;
    if (room < paper.scrollWidth && (at < paper.scrollLeft || at > paper.scrollLeft + room)) paper.scrollLeft = at - room / 2;
  }

  // where one is

  begin() {
    const { head } = this.run;
    $("cursor").max = $("number").max = this.run.lines;
    const said = [head.said && `The run ends so: ${head.said}.`, head.left && `Left out: ${head.left}.`,
      head.isCut && "The log ends within a run."].filter(Boolean);
    $("note").textContent = said.join(" ");
    $("panels").className = head.hasMemory ? "" : "bare";
    for (const id of ["p-call", "of-memory"]) $(id).hidden = !head.hasMemory;
    this.listMarks();
    this.listTerminals();
    document.querySelector("main").hidden = false;
    this.listen();
    this.fromAddress();
  }

  fromAddress() {
    const found = /line=([0-9]+)/.exec(location.hash);
    this.go(found ? Number(found[1]) : 1);
  }

  go(line) {
    const last = this.run.lines;
    this.line = Math.max(1, Math.min(Math.floor(line) || 1, last));
    this.run.seek(this.line);
    this.show();
    clearTimeout(this.later);
    this.later = setTimeout(() => this.toAddress(), 200);
  }

  toAddress() {
    const wanted = `#line=${this.line}`;
    if (location.hash !== wanted && (location.hash || this.line > 1)) history.replaceState(null, "", wanted);
  }

  step(way, what) {
    const by = way === "on" ? 1 : -1;
    this.go(what === "line" ? this.line + by : this.run.next(this.line, KINDS[what], by));
  }

  // what is shown

  show() {
    const { run, line } = this;
    const moment = run.moment(line), isHidden = this.isHidden(moment);
    $("cursor").value = $("number").value = line;
    $("head").textContent = this.headOf(moment);
    $("cursor").setAttribute("aria-valuetext", `line ${line}: ${run.words(line)}`);
    $("raw").textContent = run.raw(line);
    $("words").textContent = run.words(line);
    $("rule").textContent = run.one("rule");
    this.list($("book"), run.shown("book"), (text) => text);
    $("book").previousElementSibling.hidden = !$("book").hasChildNodes();
    $("call").textContent = isHidden && !run.is(line, CALL) ? HIDDEN : run.one("call") || "No call ends with this line, and none begins to wait.";
    for (const name of ["core", "swap", "texts"]) $(name).textContent = run.shown(name).join("\n");
    this.showLog();
    this.showProcesses(moment);
    this.showTerminal(moment, isHidden);
    this.showProcess(moment, isHidden);
    this.drawCursor();
    if (this.isQuiz) this.showQuestion();
  }

  /** Whether what is known of a moment would give away a choice of a quiz: it is known after all lines of the moment. */
  isHidden(moment) {
    return this.isQuiz && moment !== null && moment.isExact && !moment.isLast;
  }

  headOf(moment) {
    const { run, line } = this;
    const running = run.one("running");
    const who = running ? running.slice(running.indexOf(" ") + 1) : this.nobody();
    const parts = [];
    if (moment) parts.push(moment.isExact ? `slot ${moment.slot} of ${run.head.last}` : `after slot ${moment.slot} of ${run.head.last}`);
    parts.push(`second ${run.one("second")}`, `line ${line} of ${run.lines}`);
    return `${parts.join(", ")}${this.within(moment)}: ${who}`;
  }

  within(moment) {
    if (!moment || !moment.isExact || moment.isLast) return "";
    return ` (of the lines ${this.run.first(moment.place)} to ${moment.end} of the moment)`;
  }

  nobody() {
    const could = this.line < this.run.lines && this.run.one("letters").includes("r");
    return could ? "nobody runs yet" : "nobody can run";
  }

  showLog() {
    const { run, line } = this;
    const first = Math.max(1, line - AROUND), last = this.isQuiz ? line : Math.min(run.lines, line + AROUND);
    const here = run.at, lines = [], digits = String(run.lines).length;
    for (let one = first; one <= last; one++) {
      run.seek(one);
      lines.push([one, `${String(one).padStart(digits)}  ${run.one("letters")}  ${run.words(one)}`]);
    }
    run.seek(here);
    this.list($("log"), lines, ([, text]) => text, (item, [one]) => {
      item.className = one === line ? "here" : "";
      if (one === line) item.setAttribute("aria-current", "step");
      item.addEventListener("click", () => this.go(one));
    });
  }

  /** Puts texts into a list, an item each. */
  list(place, texts, told, more) {
    place.replaceChildren(...texts.map((one) => {
      const item = document.createElement("li");
      item.textContent = told(one);
      if (more) more(item, one);
      return item;
    }));
  }

  showProcesses(moment) {
    const rows = this.run.panel("ps").map((text, slot) => [slot, text.split("\t")]).filter(([, found]) => found.length > 1);
    const isKnown = moment && moment.isExact && moment.isLast;  // memory, at just this line
    const cells = (kind, texts) => texts.map((text) => {
      const cell = document.createElement(kind);
      cell.textContent = text;
      if (kind === "th") cell.scope = "col";
      return cell;
    });
    const made = (kind, texts, name) => {
      const row = document.createElement("tr");
      row.className = name;
      row.append(...cells(kind, texts));
      return row;
    };
    const chosen = String(this.chosenSlot());
    const kind = (slot, found) => [found[0] === "R" && "runs", String(slot) === chosen && "chosen"].filter(Boolean).join(" ");
    const told = rows.map(([slot, found]) => made("td", [...found, this.callOf(slot, found, isKnown)], kind(slot, found)));
    rows.forEach(([slot], at) => told[at].addEventListener("click", () => this.choose(String(slot))));
    $("ps").replaceChildren(made("th", [...this.run.head.ps, "CALL"], ""), ...told);
    this.offer(rows);
  }

  /** The call in which a process waits: with its arguments, where memory is known of just this line, and else by what it waits for. */
  callOf(slot, cells, isKnown) {
    const told = isKnown && this.run.shown(`process ${slot}`).find((text) => CALL_OF.test(text));
    if (told) return told.replace(CALL_OF, "").replace(BEGUN, "");
    const call = CALLS[cells[WAITS].split(".")[0]];
    return call ? `${call}(..)` : "";
  }

  /** The processes that may be chosen to be shown whole. */
  offer(rows) {
    const wanted = [["", "the running process, or process 1"], ...rows.map(([slot, found]) => [String(slot), `process ${found[NUMBER]}, in entry ${slot}`])];
    const was = $("chosen").value;
    const same = [...$("chosen").options].map((one) => one.value + one.textContent).join() === wanted.map((one) => one.join("")).join();
    if (same) return;
    $("chosen").replaceChildren(...wanted.map(([value, text]) => {
      const option = document.createElement("option");
      option.value = value;
      option.textContent = text;
      return option;
    }));
    $("chosen").value = wanted.some(([value]) => value === was) ? was : "";
  }

  /** Shows the process in an entry of the table whole from here on. */
  choose(slot) {
    $("chosen").value = slot;
    this.show();
  }

  /** The entry of the table of the process that is shown whole. */
  chosenSlot() {
    const chosen = $("chosen").value;
    if (chosen !== "") return Number(chosen);
    const moment = this.run.moment(this.line);
    const running = moment && moment.isExact && !this.isQuiz ? this.run.after("running", moment.end) : this.run.one("running");
    return Number(running.split(" ")[0]) || 1;  // where the swapper runs too
  }

  showProcess(moment, isHidden) {
    const { run } = this, slot = this.chosenSlot();
    $("why").disabled = !slot;
    if (!run.head.hasMemory) {
      $("process").textContent = `What the log tells of process ${run.panel("ps")[slot].split("\t")[NUMBER]} is in the table.`;
      return;
    }
    const parts = { process: "process", code: "code", stack: "stack", area: "u area" };
    for (const [id, name] of Object.entries(parts)) {
      const told = isHidden ? [] : run.shown(`${name} ${slot}`);
      $(id).textContent = told.join("\n");
      $("p-" + id).hidden = !told.length && id !== "process";  // of one that has ended half of its u area is left
    }
    const said = isHidden ? HIDDEN : this.when(moment, slot);
    if (said) $("process").textContent = `${said}\n${$("process").textContent}`;
  }

  /** Of when the memory is that is shown of a process, where that isn't just after the line; and whether it was another's then. */
  when(moment, slot) {
    if (!moment || moment.isExact && moment.isLast) return "";
    const [first] = this.run.shown(`process ${slot}`), now = this.run.panel("ps")[slot].split("\t")[NUMBER];
    if (moment.isExact && !first) return `process ${now} has gone by line ${moment.end}, the last of the moment, and memory isn't known within it`;
    if (moment.isExact) return `after all lines of the moment, up to ${moment.end}, since memory isn't known within it:`;
    const was = !first || slot && first.split(" ")[1] !== now ? `process ${now} wasn't there in slot ${moment.slot}` : `as in slot ${moment.slot}`;
    return `${was}, where core was looked at last${first ? ":" : ""}`;
  }

  showTerminal(moment, isHidden) {
    const { terminals } = this.run.head;
    const which = Number($("terminal").value || 0);
    const start = terminals.slice(0, which).reduce((sum, one) => sum + one, 0);
    const known = moment && this.run.shownAt(moment.place - (isHidden ? 1 : 0), which);
    const end = start + (moment ? known : this.run.head.isRun ? 0 : terminals[which] || 0);
    const from = Math.max(start, end - MOST_SHOWN);
    $("term").replaceChildren(from > start ? ".. " : "", ...typed(this.run.columns.term.subarray(from, end)));
    $("term").scrollTop = $("term").scrollHeight;
  }

  listTerminals() {
    const { terminals, isEight } = this.run.head;
    $("which").hidden = terminals.length < 2;
    $("terminal").replaceChildren(...terminals.map((_, number) => {
      const option = document.createElement("option");
      option.value = number;
      option.textContent = isEight ? `line ${number}` : number + 1;
      return option;
    }));
  }

  listMarks() {
    const { marks } = this.run.head;
    $("p-marks").hidden = !marks.length;
    this.list($("marks"), marks, () => "", (item, [line, sentence]) => {
      const button = document.createElement("button");
      button.textContent = `line ${line}: ${sentence}`;
      button.addEventListener("click", () => this.go(line));
      item.append(button);
    });
  }

  /** Goes to the line that put the image of the process that is shown whole where it is. It stays the one that is shown. */
  why() {
    const slot = this.chosenSlot(), line = this.run.placed(slot, this.line);
    if (!slot || !line) return;
    $("chosen").value = slot;
    this.go(line);
  }

  // play, search and quiz

  play(isOn = this.timer === null) {
    clearInterval(this.timer);
    this.timer = null;
    $("head").setAttribute("aria-live", isOn ? "off" : "polite");  // a reader isn't told line after line
    $("play").setAttribute("aria-pressed", String(isOn));
    $("play").textContent = isOn ? "Stop" : "Play";
    if (!isOn) return;
    this.timer = setInterval(() => this.line === this.run.lines ? this.play(false) : this.go(this.line + 1), 1000 / Number($("pace").value));
  }

  search(by) {
    const word = $("word").value.trim();
    const found = word ? this.run.search(word, this.line, by) : 0;
    $("found").textContent = !word ? "" : found ? `line ${found}` : by > 0 ? "not found after this line" : "not found before this line";
    if (found) this.go(found);
  }

  /** Begins or ends the quiz. Where that was done by its button, the one that answers is the next to be pressed. */
  quiz(isByButton) {
    this.isQuiz = !this.isQuiz;
    this.play(false);
    $("quiz").setAttribute("aria-pressed", String(this.isQuiz));
    $("ask").hidden = !this.isQuiz;
    if (this.isQuiz) this.ask(); else this.show();
    if (this.isQuiz && isByButton) $("answer").focus();
  }

  /** Goes to just before the next choice from a line on, which is then hidden. */
  ask(from = this.line) {
    const next = this.run.next(from, CHOICE, 1);
    this.go(this.run.is(next, CHOICE) ? next - 1 : this.line);
  }

  /** Shows the answer, or asks on. The button for what comes then is the next to be pressed, where one of the two was. */
  answer(isAnswer) {
    if (isAnswer) this.step("on", "line"); else this.ask(this.line + (this.isAsked() ? 1 : 0));
    const next = $(this.isAsked() ? "answer" : "another");
    if (document.activeElement !== document.body) next.focus();
  }

  isAsked() {
    return this.line < this.run.lines && this.run.is(this.line + 1, CHOICE);
  }

  showQuestion() {
    const isAsked = this.isAsked();
    $("answer").disabled = !isAsked;
    $("question").textContent = isAsked ? "A choice comes next. Who runs, and by which rule?"
      : this.run.is(this.line, CHOICE) ? `${this.run.words(this.line)}. ${this.run.one("rule")}` : "No choice comes with the next line.";
  }

  // keys and buttons

  listen() {
    for (const button of document.querySelectorAll("[data-go]")) {
      button.setAttribute("aria-label", button.dataset.go.replace("on ", "on to the next ").replace("back ", "back to the last "));
      button.addEventListener("click", () => this.step(...button.dataset.go.split(" ")));
    }
    $("cursor").addEventListener("input", () => this.go(Number($("cursor").value)));
    $("number").addEventListener("change", () => this.go(Number($("number").value)));
    $("chosen").addEventListener("change", () => this.show());
    $("terminal").addEventListener("change", () => this.show());
    $("play").addEventListener("click", () => this.play());
    $("pace").addEventListener("change", () => this.timer !== null && this.play(true));
    $("before").addEventListener("click", () => this.search(-1));
    $("search").addEventListener("submit", (event) => {
      event.preventDefault();
      $("word").blur();  // so that N goes on
      this.search(1);
    });
    $("why").addEventListener("click", () => this.why());
    $("quiz").addEventListener("click", () => this.quiz(true));
    $("answer").addEventListener("click", () => this.answer(true));
    $("another").addEventListener("click", () => this.answer(false));
    $("keys").addEventListener("click", () => {
      $("help").hidden = !$("help").hidden;
      $("keys").setAttribute("aria-expanded", String(!$("help").hidden));
    });
    window.addEventListener("hashchange", () => this.fromAddress());
    document.addEventListener("keydown", (event) => this.key(event));
  }

  /** Keys that the place takes itself in which one is stay its own: all of them in a text, a number and a list, those that move the slider,
      and arrows where there is more than has room. */
  isTaken({ target, key }) {
    if (target === $("cursor")) return key.length > 1;
    const isFull = target.scrollWidth > target.clientWidth && ![document.body, $("paper")].includes(target);
    return /^(INPUT|SELECT)$/.test(target.tagName) || isFull && key.startsWith("Arrow");
  }

  key(event) {
    if (event.ctrlKey || event.altKey || event.metaKey || this.isTaken(event)) return;
    const way = event.shiftKey ? "back" : "on";
    const does = {
      ArrowLeft: () => this.step("back", "line"), ArrowRight: () => this.step("on", "line"),
      Home: () => this.go(1), End: () => this.go(this.run.lines),
      c: () => this.step(way, "choice"), a: () => this.step(way, "call"), s: () => this.step(way, "second"),
      p: () => this.play(), q: () => this.quiz(), n: () => this.search(event.shiftKey ? -1 : 1), "/": () => $("word").focus(),
      w: () => this.why(), Enter: () => this.isQuiz && this.answer(this.isAsked()),
    }[event.key.length === 1 ? event.key.toLowerCase() : event.key];
    if (!does || event.key === "Enter" && event.target !== document.body) return;
    event.preventDefault();
    does();
  }
}

async function open() {
  try {
    if (typeof DecompressionStream === "undefined") throw new Error("this browser is too old: it can't unpack the run");
    const place = $("data");
    window.page = new Page(new Run(await unpacked(place.textContent)));
    place.remove();
  } catch (error) {
    $("note").textContent = `The page can't be shown: ${error.message}`;
    throw error;
  }
}

open();
