
// The live page: a panel that makes the next row. What suits a thread, what its next step would do, what a row did and who leaves a queue when comes from the
// server, which asks the proved library; this script keeps the rows, and asks.

// ---- Questions to the server. Functions that are called before the rest of this script has run use nothing but each other.

async function ask(name, question) {
  let answer;
  try {
    answer = await fetch(name, { method: "POST", headers: { "Content-Type": "application/json" }, body: JSON.stringify(question) });
  } catch {
    throw new Error("The server has ended. The address holds the run: ./bench play 'LINK' plays it again.");
  }
  const said = await answer.json();
  if (!answer.ok) throw new Error(said.error);
  return said;
}

// The run that the address holds, else the one that the command line named.
async function liveRun() {
  const start = JSON.parse(document.getElementById("run").textContent), named = new URLSearchParams(location.hash.slice(1));
  const given = { file: start.file, till: start.till }, linked = named.has("run") ? { file: named.get("run"), till: named.get("till") } : given;
  let asked = linked, opened, wrong = "";
  try {
    opened = await ask("open", linked);
  } catch (error) {
    wrong = error.message;
    asked = given;
    opened = await ask("open", given);
  }
  const isStart = asked.file === start.file && asked.till === start.till, rows = opened.changes.length;
  return {
    ...opened,
    opened: (isStart ? start.row : null) ?? (rows ? rows - 1 : null),
    begun: start,
    till: asked.till,
    second: named.get("second") === "1" || (isStart && start.second),
    watch: named.get("watch") ?? start.watch,
    note: wrong ? `The link: ${wrong}` : isStart && !opened.note ? start.note : opened.note,
    isWrong: wrong !== "" || opened.note !== "",
  };
}

// ---- The run: its rows, and the address that holds them.

const hasSecond = used.length > 1;
const LISTS = { thread: run.thread, given: run.given, order: run.order, kind: run.kind, word: run.word, said: run.said, change: run.changes };
const rowsFrom = (row) => range(last - row).map((i) => Object.fromEntries(Object.entries(LISTS).map(([name, list]) => [name, list[row + i]])));

function encode(bytes) {
  let text = "";
  for (const byte of bytes) text += String.fromCharCode(byte);
  return btoa(text).replaceAll("+", "-").replaceAll("/", "_").replaceAll("=", "");
}
const fileOf = (rows) => new Uint8Array([nodes, fan, threads, rows & 255, rows >> 8, ...run.thread.slice(0, rows), ...run.given.slice(0, rows)]);
// The first rows, as every question has them.
const runOf = (rows) => ({ file: encode(fileOf(rows)), till: run.till, second: hasSecond });

// A run as an address names it. A condition that was taken away is named too, as none, where the command line had one.
function named(file, till, second) {
  const parts = [`run=${file}`];
  if (till !== null) parts.push(`till=${till}`);
  if (second) parts.push("second=1");
  if (watching || run.begun.watch) parts.push(`watch=${encodeURIComponent(watching)}`);
  return parts.join("&");
}
addressOf = (at) => `${linkTo(at)}&${named(encode(fileOf(last)), run.till, hasSecond)}`;
// A link of another run that is followed here is opened; one of this run only steps.
addEventListener("hashchange", () => {
  const linked = new URLSearchParams(location.hash.slice(1));
  if (linked.has("run") && (linked.get("run") !== encode(fileOf(last)) || linked.get("till") !== run.till)) location.reload();
});

// How often rows were replaced: an answer that was asked for before is of other rows.
let edits = 0;
// Puts rows in place of those behind the first `keep`, and goes to a state.
function replace(keep, rows, at) {
  const top = readScrolls();
  edits++;
  for (const [name, list] of Object.entries(LISTS)) {
    list.length = keep;
    for (const row of rows) list.push(row[name]);
  }
  run.fileRows = last = keep + rows.length;
  run.stuck = "";
  tabulate(keep);
  takeIn(keep + 1);
  [fails, holds] = [allOfKind(FAILED), allOfKind(HELD_UP)];
  listRows(keep + 1);
  sayCounts();
  flagged = flagged.filter((each) => each <= keep);
  watchedTo = Math.min(watchedTo, keep);
  current = at;
  if (drawings.some((drawing) => drawing.isShort())) layOut(false);
  else {
    scaleLanes(false);
    buildOverview();
    drawZoom();
    draw(0, top);
  }
  drawUndo();
  watchOn();
}

// ---- Undo and redo: which rows were put in place of which.

const done = [], undone = [];
function edit(keep, rows) {
  done.push({ keep, before: rowsFrom(keep), after: rows });
  undone.length = 0;
  replace(keep, rows, keep + rows.length);
}
function undo() {
  const change = done.pop();
  if (!change) return;
  undone.push(change);
  replace(change.keep, change.before, change.keep);
  tell("");
}
function redo() {
  const change = undone.pop();
  if (!change) return;
  done.push(change);
  replace(change.keep, change.after, change.keep + change.after.length);
  tell("");
}
function drawUndo() {
  byId("undo").disabled = done.length === 0;
  byId("redo").disabled = undone.length === 0;
}

// ---- What is told: notes, and what is wrong.

function tell(text, isWrong = false) {
  byId("told").replaceChildren();
  if (text) add(byId("told"), "span", { class: isWrong ? "wrong" : "" }, text);
  if (coming.stuck) add(byId("told"), "span", { class: "stuck" }, `${text ? " " : ""}${coming.stuck}`);
}
const fail = (error) => tell(error.message, true);

// ---- Making rows. One question after the other: each goes on from where the one before left.

let chain = Promise.resolve();
function afterwards(step) {
  chain = chain.then(step).catch(fail);
}
function make(question) {
  afterwards(async () => {
    const keep = current;
    const { rows, note, leaving } = await ask("rows", { ...runOf(keep), condition: watching, ...question });
    if (rows.length) {
      edit(keep, rows);
      coming.leaving = leaving;
      drawLeaving();
    }
    tell(note, rows.length === 0 && note !== "");
  });
}
// How often turns were drawn: each draw is another.
let drawCount = 0;
const times = (id) => clamp(Math.round(byId(id).valueAsNumber) || 1, 1, 1000);
const SEVERAL = {
  "asleep-on": () => make({ do: "asleep" }),
  "rounds-on": () => make({ do: "rounds", times: times("rounds-times") }),
  "drawn-on": () => make({ do: "drawn", times: times("drawn-times"), seed: drawCount++ }),
  undo: () => afterwards(undo),
  redo: () => afterwards(redo),
};
for (const id in SEVERAL) byId(id).addEventListener("click", SEVERAL[id]);

// ---- The panel: for each thread a button for each order, of which those are shown that suit it.

const GO = 0, READ = 64, BOOK = 96, OTHER = 128;
const CALLS = [["write", 1, "w"], ["unlock", 2, "u"], ["upgrade", 3, "p"], ["downgrade", 4, "d"]];
const entries = run.entries.map(([room, amount], entry) => `${entry}: ${amount > 0 ? "+" : ""}${amount}, room ${room}`);

const moves = range(threads).map((thread) => {
  const line = add(byId("moves"), "li");
  add(line, "span", { class: "who" }, String(thread));
  const stands = add(line, "span", { class: "stands" }), offered = add(line, "span", { class: "offered" });
  const buttons = new Map();
  const button = (parent, key, text, name, press) => {
    const made = add(parent, "button", { type: "button", "aria-label": `Thread ${thread}: ${name}`, title: `${name} (${key})` }, text);
    made.addEventListener("click", () => press());
    buttons.set(key, made);
    return made;
  };
  // An order with a number, which is chosen beside it where there is a choice.
  const numbered = (key, text, name, base, options, label) => {
    const pair = add(offered, "span", { class: "pair" });
    button(pair, key, text, name, () => make({ do: "row", thread, order: base + Number(choice.value) }));
    const choice = add(pair, "select", { "aria-label": `Thread ${thread}: ${label}` });
    options.forEach((option, i) => add(choice, "option", { value: i }, option));
    choice.addEventListener("change", () => askNext());
    if (options.length === 1 && base % OTHER === READ) choice.remove();
    return { pair, choice, chosen: () => Number(choice.value) };
  };
  button(offered, "g", "go", "go", () => make({ do: "row", thread, order: GO })).classList.add("go");
  const would = add(offered, "span", { class: "would", id: `would-${thread}` });
  buttons.get("g").setAttribute("aria-describedby", would.id);
  button(offered, "e", "to its end", "go on to the end of its call", () => make({ do: "end", thread }));
  const reads = used.map((lock) => {
    const second = lock ? ", second lock" : "", key = (letter) => (lock ? letter.toUpperCase() : letter);
    if (lock) add(offered, "span", { class: "of-second" }, "2nd:");
    // At first the threads are spread over the nodes.
    const read = numbered(key("r"), nodes > 1 ? "read by" : "read", `read-lock${second}`, READ + OTHER * lock, range(nodes).map(String), `node to read by${second}`);
    read.choice.value = thread % nodes;
    for (const [name, order, letter] of CALLS) button(offered, key(letter), name, `${name}${second}`, () => make({ do: "row", thread, order: order + OTHER * lock }));
    return read;
  });
  const book = entries.length ? numbered("b", "book", "book", BOOK, entries, "entry to book") : null;
  // Who may book next is another thread: the entry is the same for all.
  book?.choice.addEventListener("change", () => {
    for (const other of moves) other.book.choice.value = book.choice.value;
  });
  const booking = add(offered, "span", { class: "would" });
  line.addEventListener("focusin", () => choose(thread));
  line.addEventListener("pointerdown", () => choose(thread));
  return { line, stands, buttons, would, booking, reads, book };
});

// The thread that keys are for.
let chosen = 0;
function choose(thread) {
  moves[chosen].line.classList.remove("chosen");
  chosen = clamp(thread, 0, threads - 1);
  moves[chosen].line.classList.add("chosen");
}

const ordinal = (n) => `${n}${n % 100 - n % 10 === 10 ? "th" : (["th", "st", "nd", "rd"][n % 10] ?? "th")}`;
const together = (who) => (who.length === 1 ? String(who[0]) : `${who.slice(0, -1).join(", ")} and ${who.at(-1)}`);

function drawPanel() {
  moves.forEach(({ line, stands, buttons, would, booking, reads, book }, thread) => {
    const suits = coming.choices[thread] ?? [], had = line.contains(document.activeElement) ? document.activeElement : null;
    const standings = used.map((lock) => run.standings[valueAt(current, fieldsOf[lock].standing(thread))]);
    stands.textContent = standings.join(" / ");
    line.setAttribute("aria-label", `Thread ${thread}, ${standings.join(", second lock ")}`);
    const has = (order) => suits.some(([each]) => each === order), found = suits.find(([order]) => order === GO);
    buttons.get("g").hidden = would.hidden = !found;
    buttons.get("e").hidden = !found || found[1] === HELD_UP;
    const leaves = used.map((lock) => coming.leaving[lock].findIndex((group) => group.includes(thread))).find((place) => place >= 0);
    would.textContent = found ? `${found[2]}${leaves === undefined ? "" : `; leaves the queue ${ordinal(leaves + 1)}`}` : "";
    would.className = `would ${found ? (found[1] === FAILED ? "failed" : found[1] === HELD_UP ? "held" : "") : ""}`;
    used.forEach((lock, i) => {
      const key = (letter) => (lock ? letter.toUpperCase() : letter);
      const calls = CALLS.map(([, order, letter]) => [buttons.get(key(letter)), has(order + OTHER * lock)]);
      const isRead = has(READ + OTHER * lock + reads[i].chosen());
      for (const [button, is] of calls) button.hidden = !is;
      reads[i].pair.hidden = !isRead;
      const label = line.querySelectorAll(".of-second")[lock - 1];
      if (label) label.hidden = !isRead && calls.every(([, is]) => !is);
    });
    const booked = book && suits.find(([order]) => order === BOOK + book.chosen());
    if (book) book.pair.hidden = !booked;
    booking.hidden = !booked;
    booking.textContent = booked ? booked[2] : "";
    // Whoever pressed a button that is gone goes on with the next.
    if (had && !had.checkVisibility()) [...line.querySelectorAll("button")].find((each) => each.checkVisibility())?.focus();
  });
}

// ---- What could come next, asked of the row that is shown.

let coming = { choices: [], leaving: [[], []], stuck: "" };
// Whether an answer is awaited, and whether the row has changed since it was asked for.
let isAsking = false, isStale = false;
async function askNext() {
  isStale = true;
  if (isAsking) return;
  isAsking = true;
  byId("panel").setAttribute("aria-busy", "true");
  try {
    while (isStale) {
      isStale = false;
      const at = current, chosenNodes = used.map((_, i) => moves.map(({ reads }) => reads[i].chosen()));
      const answer = await ask("next", { ...runOf(at), nodes: chosenNodes, entry: moves[0].book?.chosen() ?? 0 });
      if (isStale) continue;
      const wasStuck = coming.stuck;
      coming = answer;
      if (at === last) {
        run.stuck = answer.stuck;
        drawSaid(current);
      }
      if (answer.note) tell(answer.note);
      else if (answer.stuck !== wasStuck) tell("");
      drawPanel();
      drawLeaving();
      performance.mark("panel");
    }
  } catch (error) {
    fail(error);
  } finally {
    isAsking = false;
    byId("panel").removeAttribute("aria-busy");
  }
}

const leaves = drawings.map(({ section }) => add(section, "p", { class: "leaves" }));
function drawLeaving() {
  const places = coming.leaving.map((groups) => new Map(groups.flatMap((group, place) => group.map((thread) => [thread, place]))));
  rankOf = (lock, thread) => (places[lock]?.get(thread) ?? threads) * threads + thread;
  for (const drawing of drawings) drawing.lineUp();
  coming.leaving.forEach((groups, lock) => {
    leaves[lock].textContent = groups.length ? `Leaves the queue, as those who hold unlock: ${groups.map(together).join(", then ")}` : "";
  });
}

let askedAt = "";
onDrawn = (at) => {
  const now = `${at} ${edits}`;
  if (now === askedAt) return;
  askedAt = now;
  askNext();
};

// ---- A condition that is watched: the rows where it comes true are marked.

let watching = run.watch, watched = Promise.resolve();
function watchOn() {
  watched = watched.then(askWatch).catch((error) => sayWatched(error.message, true));
}
// The state up to which that was asked, and the condition that it was asked of.
let watchedTo = -1, watchedText = "";
async function askWatch() {
  if (watchedText !== watching) [watchedText, watchedTo, flagged] = [watching, -1, []];
  while (watching && watchedTo < last) {
    const before = edits, answer = await ask("watch", { ...runOf(last), condition: watching, from: watchedTo + 1 });
    // Whoever changed them has asked for more.
    if (before !== edits || watchedText !== watching) return;
    flagged.push(...answer.true);
    watchedTo = answer.to;
  }
  const isFlagged = new Set(flagged);
  items.forEach((link, at) => link.classList.toggle("flagged", isFlagged.has(at)));
  lanes.stale = true;
  drawLanes(current);
  sayWatched("");
  if (!watching) return;
  const said = byId("watched");
  said.append(flagged.length ? "Came true " : "Not true after any row so far");
  flagged.slice(0, 12).forEach((at, i) => {
    if (i) said.append(", ");
    add(said, "a", { href: linkTo(at) }, at === 0 ? "before the first row" : `at row ${at - 1}`);
  });
  if (flagged.length > 12) said.append(`, and ${flagged.length - 12} times more`);
}
function sayWatched(text, isWrong = false) {
  byId("watched").className = isWrong ? "wrong" : "";
  byId("watched").textContent = text;
  if (isWrong) for (const link of items) link.classList.remove("flagged");
}
byId("watch").addEventListener("submit", (event) => {
  event.preventDefault();
  watching = byId("condition").value.trim();
  watchOn();
  keepLink();
});

// ---- Save and copy.

async function exported(form) {
  return (await ask("copy", { ...runOf(last), as: form })).text;
}
async function copy(text) {
  byId("copied").hidden = false;
  byId("copied").value = text;
  try {
    await navigator.clipboard.writeText(text);
    tell("Copied.");
  } catch {
    byId("copied").focus();
    byId("copied").select();
    tell("The browser does not let it be copied: it is selected below.");
  }
}
function download(data, name, type) {
  const link = add(document.body, "a", { href: URL.createObjectURL(new Blob([data], { type })), download: name, hidden: "" });
  link.click();
  link.remove();
  // Not at once: some browsers read it only then.
  setTimeout(() => URL.revokeObjectURL(link.href), 60_000);
}
const fileName = run.title.replaceAll(/[^\w-]+/g, "-") || "play";
const KEEPING = {
  "copy-text": async () => copy(await exported("text")),
  "copy-command": async () => copy(await exported("command")),
  "copy-link": async () => copy(location.href.split("#")[0] + addressOf(current)),
  "load-text": async () => download(await exported("text"), `${fileName}.schedule.txt`, "text/plain"),
  "load-schedule": async () => download(fileOf(last), `${fileName}.schedule`, "application/octet-stream"),
  "load-page": async () => download(await exported("page"), `${fileName}.html`, "text/html"),
  save: async () => tell(`Saved: ${(await ask("save", runOf(last))).saved}`),
};
for (const id in KEEPING) byId(id).addEventListener("click", () => KEEPING[id]().catch(fail));
byId("save").hidden = run.begun.output === null;
byId("save").textContent = `Save to ${run.begun.output}`;

// ---- Another start: it is opened by its address.

async function startAnew(question) {
  const { file, till } = await ask("start", { tillText: byId("anew-till").value, ...question });
  history.pushState(null, "", `#${named(file, till, byId("anew-second").checked)}`);
  location.reload();
}
const sizeOf = (name) => byId(`anew-${name}`).valueAsNumber;
for (const [name, size] of [["nodes", nodes], ["fan", fan], ["threads", threads]]) byId(`anew-${name}`).value = size;
byId("anew-second").checked = hasSecond;
byId("anew-fresh").addEventListener("click", () => {
  const sizes = { nodes: sizeOf("nodes"), fan: sizeOf("fan"), threads: sizeOf("threads") };
  startAnew(sizes).catch(fail);
});
byId("anew-take").addEventListener("click", () => startAnew({ text: byId("anew-text").value }).catch(fail));
// A file is a text where its name says so, else a schedule's bytes, which the server takes or refuses.
byId("anew-file").addEventListener("change", async (event) => {
  const [file] = event.target.files;
  if (!file) return;
  // The same file, mended, can be chosen again.
  event.target.value = "";
  if (file.size > 400000) return tell(`${file.name} is too long for a schedule.`, true);
  if (file.name.endsWith(".txt")) byId("anew-text").value = await file.text();
  else startAnew({ file: encode(new Uint8Array(await file.arrayBuffer())) }).catch(fail);
});

// ---- Keys.

const LETTERS = {
  a: SEVERAL["asleep-on"],
  o: SEVERAL["rounds-on"],
  t: SEVERAL["drawn-on"],
  z: SEVERAL.undo,
  y: SEVERAL.redo,
  j: () => chooseInView(chosen + 1),
  k: () => chooseInView(chosen - 1),
};
function chooseInView(thread) {
  choose(thread);
  moves[chosen].line.scrollIntoView({ block: "nearest" });
  tell(`Thread ${chosen} is chosen.`);
}
// The digits typed last, and when.
let typed = "", typedTime = 0;
function typeDigit(digit) {
  const now = performance.now(), both = typed + digit;
  typed = now - typedTime < 700 && Number(both) < threads ? both : digit;
  typedTime = now;
  if (Number(typed) < threads) chooseInView(Number(typed));
  else tell(`There is no thread ${typed}.`, true);
}
document.addEventListener("keydown", (event) => {
  const { key } = event;
  if (event.altKey || event.metaKey || event.target.matches("input:not([type=checkbox], [type=range]), pre, select, textarea")) return;
  if (event.ctrlKey) {
    const letter = key.toLowerCase();
    if (letter !== "z" && letter !== "y") return;
    event.preventDefault();
    SEVERAL[letter === "z" && !event.shiftKey ? "undo" : "redo"]();
    return;
  }
  if (!byId("letters").checked || key.length !== 1) return;
  const button = moves[chosen].buttons.get(key);
  if (/\d/.test(key)) typeDigit(key);
  else if (LETTERS[key]) LETTERS[key]();
  else if (button && button.checkVisibility()) button.click();
  else if (button) tell(`${button.getAttribute("aria-label")}: does not suit now.`, true);
  else return;
  event.preventDefault();
});

// ---- At first.

byId("condition").value = watching;
choose(0);
drawUndo();
tell(run.note, run.isWrong);
onDrawn(current);
watchOn();
if (run.till !== null) ask("copy", { ...runOf(0), as: "till" }).then(({ text }) => (byId("anew-till").value = text), fail);
