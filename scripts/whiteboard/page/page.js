"use strict";
// The page: three fields, the answer to them, and its readings. All text is set as text; pictures
// come escaped and are parsed as SVG, and no script runs in them.

const PAUSE = 200;
const ENDS = /\n+$/;
const $ = (id) => document.getElementById(id);

/** Asks the server; nothing where a later question has taken this one's place. */
async function ask(question, asked, signal) {
  try {
    const answer = await fetch(`/api/${question}`, {
      method: "POST",
      headers: { "Content-Type": "application/json" },
      body: JSON.stringify(asked),
      signal,
    });
    return await answer.json();
  } catch (error) {
    if (error.name === "AbortError") return null;
    return { said: "The whiteboard does not answer: is it still running?", failed: true };
  }
}

function element(name, className, text) {
  const made = document.createElement(name);
  if (className) made.className = className;
  if (text !== undefined) made.textContent = text;
  return made;
}

function button(className, text, act) {
  const made = element("button", className, text);
  made.type = "button";
  made.addEventListener("click", act);
  return made;
}

// ---- columns on the grid: as scripts/reading/cells.py counts them

let wide = [];
const ON_ANOTHER = /[\p{Mn}\p{Me}\p{Cf}]/u;

function cells(text) {
  let count = 0;
  for (const letter of text) {
    const code = letter.codePointAt(0);
    if (code < 128) count += 1;
    else if (!ON_ANOTHER.test(letter)) {
      count += wide.some(([first, last]) => first <= code && code <= last) ? 2 : 1;
    }
  }
  return count;
}

/** A field with numbered lines, marks beneath its text, and notes. */
class Editor {
  constructor(place) {
    this.name = place.dataset.field;
    [this.least, this.most] = place.dataset.rows.split(" ").map(Number);
    this.area = place.querySelector("textarea");
    this.field = place.querySelector(".field");
    this.under = place.querySelector(".under");
    this.gutter = place.querySelector(".gutter");
    this.ruler = place.querySelector(".ruler pre");
    this.list = place.querySelector(".notes");
    this.marks = [];
    this.notes = [];
    this.glosses = {};
    this.area.addEventListener("input", () => {
      this.keep();
      this.draw();
      say("");
      opened = [];
      later();
    });
    this.area.addEventListener("scroll", () => this.follow());
    if (this.ruler) {
      document.addEventListener("selectionchange", () => this.rule());
      this.area.addEventListener("blur", () => this.rule());
    }
  }

  get text() {
    return this.area.value;
  }

  get lines() {
    return this.text.split("\n");
  }

  /** Takes the place of all text; by hand, so that it can be undone. */
  write(text, byHand = false) {
    if (byHand) {
      this.area.focus();
      this.area.select();
      if (document.execCommand(text ? "insertText" : "delete", false, text)) return;
    }
    this.area.value = text;
    this.draw();
  }

  /** Until the answer comes: marks of words that still stand, notes on lines that are the same. */
  keep() {
    const lines = this.lines;
    const before = this.drawn ?? lines;
    this.marks = this.marks.filter((mark) => piece(lines, mark) === mark.text);
    this.notes = this.notes.filter((note) => lines[note.line - 1] === before[note.line - 1]);
    for (const line of Object.keys(this.glosses)) {
      if (lines[line - 1] !== before[line - 1]) delete this.glosses[line];
    }
  }

  follow() {
    const { scrollLeft, scrollTop } = this.area;
    this.under.style.transform = `translate(${-scrollLeft}px, ${-scrollTop}px)`;
    this.field.style.setProperty("--over", `${scrollLeft}px`);
    this.field.style.setProperty("--down", `${scrollTop}px`);
    if (this.ruler) this.ruler.style.transform = `translateX(${-scrollLeft}px)`;
    this.gutter.scrollTop = scrollTop;
  }

  draw() {
    const lines = this.lines;
    this.drawn = lines;
    this.area.rows = Math.min(Math.max(lines.length, this.least), this.most);
    this.gutter.style.height = `${this.area.offsetHeight}px`;
    const faulty = new Set(this.notes.map((note) => note.line));
    this.gutter.replaceChildren(
      ...lines.map((_, n) => element("span", faulty.has(n + 1) ? "fault" : "", `${n + 1}\n`)),
    );
    const pieces = lines.flatMap((line, n) => [...this.line(line, n + 1), "\n"]);
    this.under.replaceChildren(...pieces);
    this.drawNotes();
    this.rule();
    this.follow();
  }

  /** A line's pieces: a span for each mark, at least one letter wide; then what is said of it,
   * or the line by names. */
  *line(line, number) {
    const notes = this.notes.filter((note) => note.line === number);
    const faults = notes.map((note) => ({ ...note, class: "fault" }));
    const marks = [...this.marks.filter((mark) => mark.line === number && mark.class), ...faults];
    const letters = [...line];
    let at = 0;
    for (const mark of marks.sort((a, b) => a.from - b.from || b.to - a.to)) {
      if (mark.from < at) continue;
      yield letters.slice(at, mark.from).join("");
      yield element("span", mark.class, letters.slice(mark.from, mark.to).join("") || " ");
      at = Math.max(mark.to, mark.from);
    }
    yield letters.slice(at).join("");
    if (notes.length) yield element("span", "lens", notes[0].said);
    else if (this.glosses[number]) yield element("span", "gloss", this.glosses[number]);
  }

  drawNotes() {
    this.area.setAttribute("aria-invalid", String(this.notes.length > 0));
    this.list.replaceChildren(...this.notes.slice(0, 5).map((note) => this.note(note)));
  }

  note(note) {
    const item = element("li");
    if (note.line) item.append(button("", `line ${note.line}`, () => this.go(note)));
    item.append(element("span", "", note.said));
    const { offer } = note;
    if (offer) item.append(button("offer", `name it: ${offer}`, () => offered(offer)));
    return item;
  }

  /** Puts the caret at a place: a line, and letters there. */
  go(place) {
    const lines = this.lines;
    const line = lines[place.line - 1] ?? "";
    const before = lines.slice(0, place.line - 1).reduce((sum, each) => sum + each.length + 1, 0);
    const units = (count) => [...line].slice(0, count).join("").length;
    this.area.focus();
    this.area.setSelectionRange(before + units(place.from), before + units(place.to));
  }

  /** The ruler: every fifth column, and the caret's. */
  rule() {
    if (!this.ruler) return;
    const end = Math.max(80, ...this.lines.map((line) => cells(line) + 10));
    let said = "1";
    for (let column = 5; column <= end; column += 5) said = said.padEnd(column - 1, "·") + column;
    const caret = document.activeElement === this.area ? this.caret() : 0;
    const label = String(caret);
    const here = element("span", "here", label);
    const parts = [said.slice(0, caret - 1), here, said.slice(caret - 1 + label.length)];
    this.ruler.replaceChildren(...(caret ? parts : [said]));
  }

  caret() {
    const before = this.text.slice(0, this.area.selectionEnd);
    return cells(before.slice(before.lastIndexOf("\n") + 1)) + 1;
  }
}

function piece(lines, mark) {
  return [...(lines[mark.line - 1] ?? "")].slice(mark.from, mark.to).join("");
}

const editors = {};
let opened = [];
for (const place of document.querySelectorAll(".editor")) {
  const editor = new Editor(place);
  editors[editor.name] = editor;
}

function fields() {
  return Object.fromEntries(Object.entries(editors).map(([name, editor]) => [name, editor.text]));
}

/** Takes a line into the names. */
function offered(line) {
  const before = editors.names.text.replace(ENDS, "");
  editors.names.write(`${before}\n${line}\n`.replace(/^\n/, ""), true);
  editors.patch.area.focus();
}

function fill(found) {
  for (const [name, text] of Object.entries(found ?? {})) {
    if (editors[name]) editors[name].write(text.replace(ENDS, ""));
  }
}

// ---- the answer

let waiting = 0;
let running = null;
let words = [];
let why = null;

function later() {
  clearTimeout(waiting);
  waiting = setTimeout(now, PAUSE);
}

async function now() {
  clearTimeout(waiting);
  waiting = 0;
  running?.abort();
  running = new AbortController();
  const mine = running;
  sessionStorage.setItem("fields", JSON.stringify(fields()));
  const found = await ask("read", { ...fields(), fold: $("fold").checked, opened }, mine.signal);
  if (!found || mine !== running) return;
  running = null;
  if (found.failed || !found.notes) {
    tell([[{ text: found.said }]], "");
    return;
  }
  words = found.words;
  why = found.why;
  for (const [name, editor] of Object.entries(editors)) {
    editor.notes = found.notes.filter((note) => note.field === name);
  }
  editors.sheet.glosses = found.glosses;
  light(null);
  editors.names.draw();
  const isOld = !found.verdict && $("readings").childElementCount > 0;
  const old = isOld ? [[{ text: "Below is what was read before." }]] : [];
  const isEmpty = found.verdict === "none" && !words.length;
  tell([...found.sentences, ...old], isEmpty ? "empty" : found.verdict);
  $("readings").classList.toggle("stale", !found.verdict);
  if (found.verdict) show(found.readings, found.noun);
}

/** The answer: its first sentence stands out, pieces of sheet and patch have their letters. */
function tell(sentences, verdict) {
  const part = ({ code, text }) => element(code ? "code" : "span", "", text);
  const [first, ...rest] = sentences.map((parts) => parts.map(part));
  $("answer").dataset.verdict = verdict;
  document.querySelector("#answer strong").replaceChildren(...first);
  const more = rest.flatMap((each) => [...each, " "]);
  document.querySelector("#answer > span").replaceChildren(...more);
}

const viewOf = () => document.querySelector('input[name="view"]:checked').value;
let isChosen = false;

/** Shows readings; until somebody chooses a view, as trees where they fit, else as outlines. */
function show(readings, noun) {
  const place = $("readings");
  place.readings = readings;
  place.noun = noun;
  const both = readings.length === 2;
  const made = (view) => readings.map((reading, n) => shown(reading, n, both, view, noun));
  const before = [...place.querySelectorAll(".scroll")].map((each) => each.scrollLeft);
  if (!isChosen) {
    place.replaceChildren(...made("tree"));
    const fits = [...place.querySelectorAll("svg")].every(
      (svg) => Number(svg.getAttribute("width")) <= 1.25 * place.clientWidth,
    );
    const view = fits ? "tree" : "outline";
    document.querySelector(`input[name="view"][value="${view}"]`).checked = true;
  }
  place.replaceChildren(...made(viewOf()));
  place.querySelectorAll(".scroll").forEach((scroll, n) => see(scroll, before[n] ?? 0));
  document.querySelector(".views").hidden = readings.length === 0;
  $("legend").hidden = readings.length !== 2;
  $("hint").hidden = readings.length === 0;
  $("line").textContent = noun === "tree" ? "rule" : "clause";
  $("repair").hidden = readings.length !== 2 || noun === "tree";
  $("fold").closest("label").hidden = readings.length !== 2;
}

/** Scrolls to where it was, and if where the readings part is out of sight, to that. */
function see(scroll, before) {
  scroll.scrollLeft = before;
  const part = scroll.querySelector(".parts, svg .box")?.getBoundingClientRect();
  const frame = scroll.getBoundingClientRect();
  if (part && (part.left < frame.left || part.right > frame.right)) {
    scroll.scrollLeft += (part.left + part.right - frame.left - frame.right) / 2;
  }
}

function shown(reading, n, both, view, noun) {
  const side = both ? ["first", "second"][n] : "";
  const made = element("section", `shown ${side} ${view === "outline" ? "outlined" : ""}`);
  const name = noun === "tree" ? "tree" : "reading";
  const heading = both ? `${name[0].toUpperCase()}${name.slice(1)} ${n + 1}` : `The ${name}`;
  const title = element("h2", "", heading);
  const scroll = element("div", "scroll");
  scroll.tabIndex = 0;
  scroll.setAttribute("role", "group");
  const keys = "arrow keys go from node to node, Enter to its clause";
  scroll.setAttribute("aria-label", `${title.textContent}: ${keys}`);
  scroll.append(view === "outline" ? outline(reading.rows, both) : picture(reading.svg));
  made.append(title, scroll);
  return made;
}

function picture(svg) {
  const read = new DOMParser().parseFromString(svg, "image/svg+xml").documentElement;
  return document.importNode(read, true);
}

function outline(rows, both) {
  const list = element("ol", `rows ${both ? "" : "only"}`);
  for (const row of rows) {
    const looks = `${row.differs ? "differs" : ""} ${row.parts ? "parts" : ""}`;
    const item = element("li", `box ${row.kind} ${looks}`);
    Object.assign(item.dataset, { start: row.start, length: row.length });
    item.dataset.pieces = row.pieces.map(([line, from, to]) => `${line}:${from}-${to}`).join(" ");
    if (row.key) item.dataset.key = row.key;
    item.title = row.said;
    item.append(element("span", "place", row.place));
    for (let n = 0; n < row.depth; n += 1) item.append(element("span", "step"));
    item.append(element("span", "text", row.text));
    list.append(item);
  }
  return list;
}

// ---- a node, its words in the patch and its piece of the sheet

/** The pieces of the sheet that a box stands for. */
function piecesOf(box) {
  return (box?.dataset.pieces ?? "").split(" ").filter(Boolean).map((told) => {
    const [line, from, to] = told.split(/[:-]/).map(Number);
    return { line, from, to, class: "lit" };
  });
}

function light(box) {
  const [start, length] = box ? [Number(box.dataset.start), Number(box.dataset.length)] : [0, 0];
  const classOf = (word, n) => {
    if (!word.known) return "";
    const isWhy = !box && why?.tokens.includes(n);
    return `known${n >= start && n < start + length ? " lit" : ""}${isWhy ? " whyno" : ""}`;
  };
  editors.patch.marks = words.map((word, n) => ({ ...word, class: classOf(word, n) }));
  const reasons = why?.pieces.map(([line, from, to]) => ({ line, from, to, class: "whyno" })) ?? [];
  const lines = editors.sheet.lines;
  const pieces = box ? piecesOf(box) : reasons;
  editors.sheet.marks = pieces.map((mark) => ({ ...mark, text: piece(lines, mark) }));
  editors.patch.draw();
  editors.sheet.draw();
}

function current(box) {
  document.querySelectorAll(".box.current").forEach((each) => each.classList.remove("current"));
  box?.classList.add("current");
  box?.scrollIntoView({ block: "nearest", inline: "nearest" });
  $("current").textContent = box?.title || box?.querySelector?.("title")?.textContent || "";
  light(box);
}

/** A click on a fold opens it alone; on a node it goes to its clause, on a token to its word. */
function act(box) {
  if (box.dataset.key) {
    opened.push(box.dataset.key);
    now();
    return;
  }
  const last = piecesOf(box).at(-1);
  if (last) editors.sheet.go(last);
  light(box);
}

$("readings").addEventListener("mouseover", (event) => light(event.target.closest(".box")));
$("readings").addEventListener("mouseleave", () => light(document.querySelector(".box.current")));
$("readings").addEventListener("focusout", () => current(null));
$("readings").addEventListener("click", (event) => {
  const box = event.target.closest(".box");
  if (box && String(getSelection()) === "") act(box);
});
$("readings").addEventListener("keydown", (event) => {
  const scroll = event.target.closest(".scroll");
  if (!scroll || event.ctrlKey || event.metaKey || event.altKey) return;
  const boxes = [...scroll.querySelectorAll(".box")];
  const at = boxes.findIndex((box) => box.classList.contains("current"));
  const to = {
    ArrowDown: at + 1,
    ArrowRight: at + 1,
    ArrowUp: at - 1,
    ArrowLeft: at - 1,
    Home: 0,
    End: boxes.length - 1,
  }[event.key];
  if (to !== undefined) current(boxes[Math.min(Math.max(to, 0), boxes.length - 1)]);
  else if (event.key === "Enter" && at >= 0) act(boxes[at]);
  else return;
  event.preventDefault();
});

// ---- what buttons do

function say(text, verdict = "") {
  $("said").textContent = text ?? "";
  $("said").dataset.verdict = verdict;
}

async function look() {
  $("look").disabled = true;
  say("looking …");
  const found = await ask("look", { ...fields(), bound: Number($("bound").value) });
  $("look").disabled = false;
  if (found.patch !== undefined) editors.patch.write(found.patch, true);
  else $("look").focus();
  say(found.said, found.verdict);
}

async function open(files) {
  const texts = await Promise.all([...files].map((file) => file.text()));
  const found = await ask("open", { files: texts, names: editors.names.text });
  say(found.said);
  fill(found.fields);
  opened = [];
  now();
}

/** Lists what can be saved, each a link to a file. */
async function save() {
  const found = await ask("save", fields());
  $("saves").querySelectorAll("a").forEach((link) => URL.revokeObjectURL(link.href));
  $("saves").replaceChildren(...(found.files ?? []).map(saved));
  $("unsaved").textContent = found.said ?? "";
  $("saves").querySelector("a")?.focus();
}

function saved(file) {
  const item = element("li");
  const link = element("a", "", file.name);
  link.href = URL.createObjectURL(new Blob([file.text], { type: "text/plain" }));
  link.download = file.name;
  item.append(link, ` ${file.about}`);
  return item;
}

$("look").addEventListener("click", look);
$("how").addEventListener("click", () => {
  $("help").open = true;
  $("help").scrollIntoView({ block: "nearest" });
  $("help").querySelector("summary").focus();
});
$("open").addEventListener("click", () => $("files").click());
$("files").addEventListener("change", async () => {
  await open($("files").files);
  $("files").value = "";
});
$("save").addEventListener("toggle", () => $("save").open && save());
$("fold").addEventListener("change", () => {
  opened = [];
  now();
});
for (const radio of document.querySelectorAll('input[name="view"]')) {
  radio.addEventListener("change", () => {
    isChosen = true;
    if ($("readings").readings) show($("readings").readings, $("readings").noun);
  });
}
document.addEventListener("click", (event) => {
  if (!event.target.closest("#save")) $("save").open = false;
});
document.addEventListener("keydown", (event) => {
  if (event.key === "Escape" && $("save").open) {
    $("save").open = false;
    $("save").querySelector("summary").focus();
  }
  if (!(event.ctrlKey || event.metaKey) || event.altKey || event.shiftKey) return;
  const shortcuts = { s: () => ($("save").open = true), o: () => $("open").click(), Enter: look };
  const shortcut = shortcuts[event.key];
  if (!shortcut) return;
  event.preventDefault();
  shortcut();
});

async function start() {
  const found = await ask("start", {});
  const isReload = performance.getEntriesByType("navigation")[0]?.type === "reload";
  const kept = isReload && sessionStorage.getItem("fields");
  wide = found.wide ?? [];
  $("file").textContent = found.file ?? "";
  say(found.said);
  fill(kept ? JSON.parse(kept) : found.fields);
  now();
}

start();
