// Steps through a run of the lock bench. Every value drawn is one of a sheet that the library gave: this script applies the changes from row to row and draws
// them, and computes no step of the lock.

// Of the page that `play` serves (play.js) the run comes from its server, and grows.
const isLive = typeof liveRun === "function";
const run = isLive ? await liveRun() : JSON.parse(document.getElementById("run").textContent);
const { nodes, fan, threads, locks, rooms } = run;
const [, READING, WRITING, CALLING, ASLEEP] = run.standings.keys();
// A run of the ticket lock has the standings idle, near, far and holding.
const isTickets = run.machine === "tickets";
const HOLDING = run.standings.indexOf("holding");

// The journal's numbers.
const FAILED = 3, HELD_UP = 4, BOOKED = 11, REPEATED = 12, DENIED = 13;
const QUEUE = 32, NO_WORD = 33, SECOND = 64;

// Each kind in a word or two: at the word that a row touched, and in a lane.
const TICKET_CELLS = ["takes", "holds", "frees", "", "waits"];
const TAGS = [
  "begins", "reads", "swaps", "swap fails", "held up", "stores", "takes mutex", "releases mutex", "at queue", "wakes", "denied", "books", "repeats", "booking denied",
];
const CELLS = isTickets ? TICKET_CELLS : ["call", "read", "swap", "fails", "held", "store", "takes", "frees", "queue", "wakes", "denied", "books", "again", "denied"];

const byId = (id) => document.getElementById(id);
document.body.classList.toggle("live", isLive);
const clamp = (value, least, most) => Math.max(least, Math.min(value, most));
const tenth = (value) => Math.round(value * 10) / 10;
const range = (count) => Array.from({ length: count }, (_, i) => i);
const parentOf = (node) => Math.floor((node - 1) / fan);

// ---- The states. `at` is the number of rows made, 0 for the fresh lock; the row that led there has the number at - 1, as in the trace.

let last = run.changes.length;
const width = run.start.length;
let table = new Int32Array((last + 1) * width);
table.set(run.start);
// Writes the states behind a row.
function tabulate(from) {
  if ((last + 1) * width > table.length) {
    const before = table;
    table = new Int32Array(2 * (last + 1) * width);
    table.set(before);
  }
  for (let row = from; row < last; row++) {
    const start = (row + 1) * width, change = run.changes[row];
    table.copyWithin(start, start - width, start);
    for (let k = 0; k < change.length; k += 2) table[start + change[k]] = change[k + 1];
  }
}
tabulate(0);
const valueAt = (at, field) => table[at * width + field];

// The fields, in the sheet's order: answer and rows taken, each lock's root, nodes, queue and threads, then the rooms.
const ANSWER = 0, TAKEN = 1, HEAD = 2, LOCK = 3 + (nodes - 1) + 3 + 3 * threads;
const TICKETS = { next: HEAD, grant: HEAD + 1, standing: (t) => HEAD + 2 + 2 * t, ticket: (t) => HEAD + 3 + 2 * t };
const fieldsOf = isTickets ? [TICKETS] : range(locks).map((lock) => {
  const base = HEAD + lock * LOCK, queue = base + 2 + nodes;
  return {
    direct: base,
    tree: base + 1,
    closed: base + 2,
    node: (n) => base + 2 + n,
    mutex: queue,
    groups: queue + 1,
    writers: queue + 2,
    standing: (t) => queue + 3 + 3 * t,
    ticket: (t) => queue + 4 + 3 * t,
    failures: (t) => queue + 5 + 3 * t,
  };
});
const roomField = (room) => HEAD + locks * LOCK + room;
// What the chart above the lanes shows: the root's counts and its flag, or the threads that hold or wait.
const standingAt = (at, is) => range(threads).filter((t) => is(valueAt(at, TICKETS.standing(t)))).length;
const directAt = (lock, at) => (isTickets ? standingAt(at, (standing) => standing === HOLDING) : valueAt(at, fieldsOf[lock].direct));
const countAt = (lock, at) => (isTickets ? standingAt(at, (standing) => standing > 0) : directAt(lock, at) + valueAt(at, fieldsOf[lock].tree));
const closedAt = (lock, at) => !isTickets && valueAt(at, fieldsOf[lock].closed) > 0;

// What the row that led to `at` was and did. A refused row did nothing, and has no kind and no word.
const threadAt = (at) => run.thread[at - 1];
const orderAt = (at) => run.order[at - 1];
const saidAt = (at) => run.said[at - 1];
const kindAt = (at) => run.kind[at - 1];
const lockAt = (at) => Math.floor(run.word[at - 1] / SECOND);
const wordAt = (at) => run.word[at - 1] % SECOND;
const isRefused = (at) => at > run.kind.length;
const allOfKind = (kind) => run.kind.flatMap((each, row) => (each === kind ? [row + 1] : []));
let fails = allOfKind(FAILED), holds = allOfKind(HELD_UP);
const CLASSES = { [FAILED]: "failed", [HELD_UP]: "held", [BOOKED]: "booked", [REPEATED]: "repeated", [DENIED]: "denied" };
const classAt = (at) => (at === 0 ? "" : isRefused(at) ? "refused" : (CLASSES[kindAt(at)] ?? ""));
// The entry of the till that a row books, with its amount as it is written.
const entryAt = (at) => Number(orderAt(at).split(" ")[1]);
const signed = (amount) => (amount > 0 ? `+${amount}` : String(amount));

// A second lock that no row touches is folded away.
const used = range(locks).filter((lock) => lock === 0 || run.second || run.word.some((word) => Math.floor(word / SECOND) === lock));
const lockName = (lock) => (isTickets ? "Ticket lock" : lock > 0 ? "Second lock" : used.length > 1 ? "First lock" : "Lock");

// The latest row of a thread in a lock.
const madeBy = range(threads).map(() => range(locks).map(() => []));
function latestOf(thread, lock, at) {
  const made = madeBy[thread][lock];
  let low = 0, high = made.length;
  while (low < high) {
    const middle = (low + high) >> 1;
    if (made[middle] <= at) low = middle + 1;
    else high = middle;
  }
  return made[low - 1];
}

// Where a thread is drawn at a lock: a holder at its ticket, a sleeper in the queue, and one in a call at the word that its latest row touched.
function placeOf(thread, lock, at, latest = latestOf(thread, lock, at)) {
  const fields = fieldsOf[lock];
  switch (valueAt(at, fields.standing(thread))) {
    case READING: return valueAt(at, fields.ticket(thread));
    case WRITING: return 0;
    case ASLEEP: return QUEUE;
    case CALLING: return wordAt(latest);
    default: return null;
  }
}

// The most threads that are ever at each place of a lock, so that there is room for them; a run that grows has room for one everywhere.
const mostAt = range(isTickets ? 0 : locks).map(() => Array(NO_WORD + 1).fill(isLive ? 1 : 0));
// The stretches of each thread in one standing: where each begins, and the standing.
const stretches = fieldsOf.map(() => range(threads).map(() => []));
// The most that a lock's chart has to show.
const mostCount = range(locks).map(() => 1);

// Takes in the states from one on, which are new; the first is that of the fresh lock.
function takeIn(from) {
  const isBehind = (at) => at >= from;
  for (const made of madeBy.flat()) while (made.length && isBehind(made.at(-1))) made.pop();
  for (let at = Math.max(from, 1); at <= run.kind.length; at++) madeBy[threadAt(at)][lockAt(at)].push(at);
  stretches.forEach((ofThreads, lock) =>
    ofThreads.forEach((found, thread) => {
      while (found.length && isBehind(found.at(-1)[0])) found.pop();
      const field = fieldsOf[lock].standing(thread);
      for (let at = from; at <= last; at++) {
        const standing = valueAt(at, field);
        if (at === 0 || standing !== found.at(-1)[1]) found.push([at, standing]);
      }
    }),
  );
  mostAt.forEach((most, lock) => {
    const counts = new Uint8Array((last + 1 - from) * (NO_WORD + 1));
    for (let t = 0; t < threads; t++) {
      const made = madeBy[t][lock];
      let next = made.findIndex(isBehind);
      if (next < 0) next = made.length;
      for (let at = from; at <= last; at++) {
        if (made[next] === at) next++;
        const place = placeOf(t, lock, at, made[next - 1]);
        if (place !== null) most[place] = Math.max(most[place], ++counts[(at - from) * (NO_WORD + 1) + place]);
      }
    }
  });
  for (let at = from; at <= last; at++) mostCount.forEach((most, lock) => (mostCount[lock] = Math.max(most, countAt(lock, at))));
}
takeIn(0);

// ---- Elements.

function set(element, attributes) {
  for (const name in attributes) element.setAttribute(name, attributes[name]);
  return element;
}
function add(parent, name, attributes = {}, text = "") {
  const space = name === "svg" ? "http://www.w3.org/2000/svg" : parent.namespaceURI;
  const element = set(document.createElementNS(space, name), attributes);
  if (text !== "") element.textContent = text;
  return parent.appendChild(element);
}

// How each field is drawn, and the element that is marked where a row changed it.
const draws = [], markable = [];
function bind(field, element, { say = String, also = () => {}, mark = element } = {}) {
  const text = element.appendChild(document.createTextNode(""));
  draws[field] = (value) => {
    text.data = say(value);
    also(value);
  };
  markable[field] = mark;
}

// ---- A lock: root, nodes, mutex and queue, and each thread at the word where it is.

const ROOMY = { root: 216, head: 54, node: 58, box: 44, label: 15, low: 11, cell: 46, chip: 26, chipBox: 18, chipLow: 5, gap: 24, name: 50 };
const DENSE = { root: 176, head: 44, node: 42, box: 28, label: 10, low: 5, cell: 42, chip: 18, chipBox: 13, chipLow: 3, gap: 17, name: 200 };
const SMALL = { root: 160, head: 31, node: 28, box: 18, label: 7.5, low: 2.5, cell: 38, chip: 14.5, chipBox: 11, chipLow: 2, gap: 4, name: 200 };
// The sizes for the width that there is, or small ones where the locks would not fit the window's height; and the height of a line of threads.
let SIZE = DENSE, LINE = 0, isSmall = false;
function chooseSizes(total) {
  SIZE = isSmall ? SMALL : used.length === 1 && nodes <= 10 && threads <= 12 && total >= 420 ? ROOMY : DENSE;
  LINE = SIZE.chipBox + (isSmall ? 1 : 3);
}
const TOP = 22, BESIDE = 14;
// So many lines of threads at a node at most; where there are more, their number is said, and which they are when one points at it.
const mostLines = () => (isSmall ? 1 : 6);

const level = [0];
for (let n = 1; n < nodes; n++) level[n] = level[parentOf(n)] + 1;

// Moves places apart to at least `gap`, each as little as can be, between `from` and `to`.
function spread(wanted, gap, from, to) {
  const blocks = [];
  wanted.forEach((x, i) => {
    let block = { sum: x - i * gap, count: 1 };
    while (blocks.length && blocks.at(-1).sum * block.count > block.sum * blocks.at(-1).count) {
      const before = blocks.pop();
      block = { sum: block.sum + before.sum, count: block.count + before.count };
    }
    blocks.push(block);
  });
  const most = to - (wanted.length - 1) * gap;
  return blocks.flatMap(({ sum, count }) => Array(count).fill(clamp(sum / count, from, most))).map((x, i) => x + i * gap);
}

// For each node: its centre, the room that it has across, and the line of the drawing that it is on, 0 being the root's.
function placeNodes(total) {
  if (fan === 1 && nodes > 6) {
    // A long chain goes to and fro.
    const across = Math.floor(total / (SIZE.node + 10)), gap = total / across;
    return range(nodes).map((n) => {
      const line = Math.floor((n - 1) / across), step = (n - 1) % across;
      return n === 0 ? { x: total / 2, gap, line: 0 } : { x: gap * ((line % 2 ? across - 1 - step : step) + 0.5), gap, line: line + 1 };
    });
  }
  const lines = [];
  level.forEach((depth, n) => (lines[depth] ??= []).push(n));
  const gap = Math.min(SIZE.node + 10, total / Math.max(...lines.map((line) => line.length)));
  const places = [{ x: total / 2, gap, line: 0 }];
  lines.slice(1).forEach((line, i) => {
    const apart = Math.max(gap, total / fan ** (i + 1));
    const wanted = line.map((n) => {
      const parent = parentOf(n), siblings = Math.min(fan, nodes - 1 - parent * fan);
      return places[parent].x + (((n - 1) % fan) - (siblings - 1) / 2) * Math.min(apart, (total - gap) / Math.max(siblings - 1, 1));
    });
    spread(wanted, gap, gap / 2, total - gap / 2).forEach((x, k) => (places[line[k]] = { x, gap, line: i + 1 }));
  });
  return places;
}

const acrossOf = (wide) => Math.max(1, Math.floor((wide + 2) / SIZE.chip));

// A labelled value in a box of its own.
function addValue(parent, box, label, field, { say, also = () => {} } = {}) {
  const part = add(parent, "g"), { x, y, w, h } = box;
  const mark = add(part, "rect", { x: tenth(x), y, width: tenth(w), height: h, rx: 5 });
  add(part, "text", { class: "label", x: tenth(x + w / 2), y: y + SIZE.label }, label);
  const value = add(part, "text", { class: "value", x: tenth(x + w / 2), y: y + h - SIZE.low });
  bind(field, value, { say, mark, also: (number) => also(number, part) });
  return value;
}

// Where a thread comes among those in a lock's queue: by number, or in the order in which they will leave, where that was asked (play.js).
let rankOf = (lock, thread) => thread;

class LockDrawing {
  constructor(lock) {
    this.lock = lock;
    this.fields = fieldsOf[lock];
    const parent = byId("states"), name = lockName(lock);
    if (used.includes(lock)) {
      this.section = add(parent, "section", { class: "card lock", "aria-label": name });
      // Where the drawing is small, what the row did to a word stands beside the lock's name.
      this.note = add(add(this.section, "h2", {}, name), "span", { class: "note" });
    } else {
      this.section = add(parent, "details", { class: "card lock" });
      add(add(this.section, "summary"), "h2", {}, `${name}: not used in this run`);
    }
    this.frame = add(this.section, "div");
    if (!used.includes(lock)) addThreadTable(add(this.section, "table", { class: "threads" }), [lock]);
  }

  // Draws what stays, for a width.
  build(total) {
    chooseSizes(total);
    this.frame.replaceChildren();
    this.svg = add(this.frame, "svg", { role: "img", class: SIZE === ROOMY ? "roomy" : isSmall ? "dense small" : "dense" });
    this.total = total;
    this.spots = new Map(); // by word: its box, and where threads are drawn that are there
    const edges = add(this.svg, "g", { class: "edges" });
    const bottom = this.#buildNodes(edges, total, this.#buildTop(total));
    set(this.svg, { viewBox: `0 0 ${total} ${bottom}`, width: total, height: bottom });

    const { x, y } = this.spots.get(NO_WORD);
    this.chips = range(threads).map((t) => {
      const element = add(this.svg, "g");
      add(element, "rect", { width: SIZE.chip - 2, height: SIZE.chipBox });
      add(element, "text", { x: SIZE.chip / 2 - 1, y: SIZE.chipBox - SIZE.chipLow }, String(t));
      element.style.transform = `translate(${x}px, ${y}px)`;
      return { element, place: null, look: "" };
    });
    this.ring = add(this.svg, "rect", { rx: 8 });
    this.tag = add(this.svg, "g");
    this.tagBox = add(this.tag, "rect", { height: 16, rx: 8 });
    this.tagText = add(this.tag, "text", { y: 12 });
  }

  // Beginnings, root and queue: beside each other, or the root below the others where that is too narrow. Gives the height behind them.
  #buildTop(total) {
    const side = (total - SIZE.root) / 2 - BESIDE, queue = Math.max(side, 3 * SIZE.cell), begun = total - SIZE.root - queue - 2 * BESIDE;
    const isBeside = begun >= 3 * SIZE.chip + 8;
    const queueWide = isBeside ? queue : Math.max((total - BESIDE) / 2, 3 * SIZE.cell), begunWide = isBeside ? begun : total - BESIDE - queueWide;
    const under = (word, wide) => SIZE.head + 4 + this.#lines(word, wide) * LINE, wide = SIZE.root;
    const queueHigh = under(QUEUE, queueWide - 8), begunHigh = Math.max(SIZE.head, 8 + this.#lines(NO_WORD, begunWide - 8) * LINE);
    const sides = Math.max(queueHigh, begunHigh);
    this.#buildBegun({ x: 1, y: TOP, w: begunWide - 1, h: begunHigh });
    this.#buildQueue({ x: total - queueWide, y: TOP, w: queueWide - 1, h: queueHigh });
    const y = isBeside ? TOP : TOP + sides + TOP + 4;
    this.#buildRoot({ x: isBeside ? begunWide + BESIDE : (total - wide) / 2, y, w: wide, h: SIZE.head });
    return Math.max(TOP + sides, y + under(0, wide));
  }

  // The lines that the threads at a word need at most, at least one.
  #lines(word, wide) {
    return Math.max(1, Math.ceil(mostAt[this.lock][word] / acrossOf(wide)));
  }

  // Threads are drawn around the middle x, in at most so many lines. A title gives way to the tag of a row that touches the word.
  #addSpot(word, box, x, y, w, lines, name = "") {
    const title = add(this.svg, "text", { class: "title", x: tenth(box.x), y: box.y - 8 }, name);
    const rest = add(this.svg, "g"), hidden = add(rest, "title"), more = add(rest, "text", { class: "more" });
    this.spots.set(word, { box, title, x, y, across: acrossOf(w), lines, more, hidden });
  }

  #buildRoot(box) {
    const { x, y, w, h } = box, group = add(this.svg, "g", { class: "root" });
    const counted = (value, part) => part.classList.toggle("arrived", value > 0);
    const cell = (i) => ({ x: x + (i * w) / 3, y, w: w / 3, h });
    this.direct = addValue(group, cell(0), "direct", this.fields.direct, { also: counted });
    this.tree = addValue(group, cell(1), "tree", this.fields.tree, { also: counted });
    this.flag = addValue(group, cell(2), "flag", this.fields.closed, {
      say: (value) => (value ? "closed" : "open"),
      also: (value, part) => part.setAttribute("class", value ? "flag closed" : "flag"),
    });
    this.#addSpot(0, box, x + w / 2, y + h + 5, w, this.#lines(0, w), "root");
  }

  #buildBegun(box) {
    const { x, y, w, h } = box;
    add(this.svg, "rect", { class: "begun", x, y, width: tenth(w), height: h, rx: 6 });
    this.#addSpot(NO_WORD, box, x + w / 2, y + 6, w - 7, this.#lines(NO_WORD, w - 7), "call begun");
  }

  #buildQueue(box) {
    const { x, y, w, h } = box, group = add(this.svg, "g", { class: "queue" });
    add(group, "rect", { x: tenth(x), y, width: tenth(w), height: h, rx: 6 });
    const cell = (i) => ({ x: x + (i * w) / 3 + 2, y: y + 2, w: w / 3 - 4, h: SIZE.head - 4 });
    this.mutex = addValue(group, cell(0), "mutex", this.fields.mutex, { say: (value) => (value === run.none ? "free" : String(value)) });
    this.groups = addValue(group, cell(1), "groups", this.fields.groups);
    this.writers = addValue(group, cell(2), "writers", this.fields.writers);
    this.#addSpot(QUEUE, box, x + w / 2, y + SIZE.head + 2, w - 7, this.#lines(QUEUE, w - 7), "queue");
  }

  // Draws the nodes from a height on; gives the height behind them.
  #buildNodes(edges, total, top) {
    const places = placeNodes(total), lines = Math.max(...places.map(({ line }) => line));
    if (lines === 0) return top + 6;
    // What each node of a line has across for the threads that are there.
    const room = Array(lines + 1).fill(6 * SIZE.chip);
    for (let n = 2; n < nodes; n++) {
      const { x, line } = places[n], before = places[n - 1];
      if (line === before.line) room[line] = Math.min(room[line], Math.abs(x - before.x));
    }
    const need = (n) => (mostAt[this.lock][n] > 0 ? Math.min(this.#lines(n, room[places[n].line] - 4), mostLines()) : 0);
    // The lines of threads below each line of nodes, and where it begins.
    const below = range(lines + 1).map((line) => Math.max(0, ...range(nodes).filter((n) => n > 0 && places[n].line === line).map(need)));
    const high = (line) => SIZE.box + 4 + Math.max(below[line], 0.4) * LINE + SIZE.gap;
    const from = [0, top + SIZE.gap];
    for (let line = 1; line <= lines; line++) from[line + 1] = from[line] + high(line);
    this.numbers = [];
    this.counts = [];
    for (let n = 1; n < nodes; n++) {
      const { x, gap, line } = places[n], w = Math.min(gap - 4, SIZE.node), y = tenth(from[line]);
      const parent = this.spots.get(parentOf(n)).box, beside = line === places[parentOf(n)].line, left = x < parent.x;
      const edge = add(edges, "path", {
        d: beside
          ? `M${tenth(left ? parent.x : parent.x + parent.w)} ${y + SIZE.box / 2}H${tenth(left ? x + w / 2 : x - w / 2)}`
          : // From the root straight down first, between what stands beside it.
            `M${tenth(parent.x + parent.w / 2)} ${parent.y + parent.h}V${parentOf(n) === 0 ? top : parent.y + parent.h}L${tenth(x)} ${y}`,
      });
      const box = { x: x - w / 2, y, w, h: SIZE.box }, group = add(this.svg, "g", { class: w < 24 ? "node tiny" : "node" });
      this.counts[n] = addValue(group, box, "", this.fields.node(n), {
        also: (value, part) => {
          part.classList.toggle("arrived", value > 0);
          edge.classList.toggle("arrived", value > 0);
        },
      });
      const label = group.querySelector(".label");
      if (isSmall) {
        // Beside each other, where there is no room for one above the other.
        set(label, { x: tenth(x - w * 0.24), y: y + 12.5 });
        set(this.counts[n], { x: tenth(x + w * 0.2), y: y + 13 });
      }
      if (w >= SIZE.name) add(label, "tspan", {}, "node ");
      this.numbers[n] = add(label, "tspan", {}, String(n));
      this.#addSpot(n, box, x, y + SIZE.box + 4, room[line] - 4, need(n));
    }
    return Math.ceil(from[lines + 1]) - (isSmall ? SIZE.gap : 0);
  }

  draw(at) {
    const unsettled = new Set();
    this.chips.forEach((chip, t) => {
      const place = placeOf(t, this.lock, at), look = `chip ${run.standings[valueAt(at, this.fields.standing(t))]}${place === null ? " away" : ""}`;
      if (place === chip.place && look === chip.look) return;
      unsettled.add(chip.place).add(place);
      chip.element.setAttribute("class", look);
      Object.assign(chip, { place, look });
    });
    unsettled.delete(null);
    for (const place of unsettled) this.#settle(place);
    this.#touch(at);
    this.svg.setAttribute("aria-label", this.#inWords(at));
  }

  // Whether a place has more threads than there is room for.
  isShort() {
    return [...this.spots].some(([word, { across, lines }]) => {
      const due = Math.ceil(mostAt[this.lock][word] / across);
      return lines < (word > 0 && word < QUEUE ? Math.min(due, mostLines()) : due);
    });
  }

  lineUp() {
    this.#settle(QUEUE);
  }

  // Lines up the threads that are at a place, as far as there is room.
  #settle(place) {
    const { x, y, across, lines, more, hidden } = this.spots.get(place);
    const here = this.chips.filter((chip) => chip.place === place);
    if (place === QUEUE) here.sort((one, other) => rankOf(this.lock, this.chips.indexOf(one)) - rankOf(this.lock, this.chips.indexOf(other)));
    const room = across * lines, shown = here.length > room ? room - 1 : here.length;
    const left = x - (Math.min(here.length, across) * SIZE.chip) / 2 + 1;
    const spot = (i) => [tenth(left + (i % across) * SIZE.chip), y + Math.floor(i / across) * LINE];
    here.forEach((chip, i) => {
      chip.element.style.transform = `translate(${spot(Math.min(i, shown)).map((each) => `${each}px`).join(", ")})`;
      chip.element.classList.toggle("hidden", i >= shown);
    });
    const [moreX, moreY] = spot(shown);
    set(more, { x: moreX, y: moreY + SIZE.chipBox - SIZE.chipLow });
    more.textContent = shown < here.length ? `+${here.length - shown}` : "";
    hidden.textContent = shown < here.length ? `threads ${here.slice(shown).map((chip) => this.chips.indexOf(chip)).join(", ")}` : "";
  }

  // Rings the word that the row touched.
  #touch(at) {
    const here = at > 0 && !isRefused(at) && lockAt(at) === this.lock && wordAt(at) !== NO_WORD;
    set(this.ring, { class: "ring away" });
    set(this.tag, { class: "tag away" });
    if (this.note) this.note.textContent = "";
    for (const [word, { title }] of this.spots) title.classList.toggle("away", here && !isSmall && word === wordAt(at));
    if (!here) return;
    const { x, y, w, h } = this.spots.get(wordAt(at)).box, kind = kindAt(at);
    const text = `thread ${threadAt(at)} ${TAGS[kind]}`, long = tenth(text.length * 6.2 + 14);
    // Over the title of the root or the queue, or above the middle of a node.
    const left = clamp(wordAt(at) % QUEUE === 0 ? x - 4 : x + (w - long) / 2, 0, this.total - long);
    set(this.ring, { x: tenth(x - 4), y: y - 4, width: tenth(w + 8), height: h + 8, class: `ring kind-${kind}` });
    if (isSmall && this.note) {
      this.note.textContent = text;
      return;
    }
    set(this.tag, { transform: `translate(${tenth(left)} ${y - 20})`, class: `tag kind-${kind}` });
    set(this.tagBox, { width: long });
    set(this.tagText, { x: long / 2 });
    this.tagText.textContent = text;
  }

  #inWords(at) {
    const say = (field) => valueAt(at, field);
    const { direct, tree, closed, mutex, groups, writers, node, standing } = this.fields;
    const arrived = range(nodes).filter((n) => n > 0 && say(node(n)) > 0).map((n) => `node ${n} at ${say(node(n))}`);
    const listed = [READING, WRITING, CALLING, ASLEEP].map((each) => [run.standings[each], range(threads).filter((t) => say(standing(t)) === each)]);
    return [
      `${lockName(this.lock)}. Root: direct ${say(direct)}, tree ${say(tree)}, ${say(closed) ? "closed" : "open"}.`,
      arrived.length ? `Nodes above 0: ${arrived.join(", ")}.` : "No node is above 0.",
      `Mutex ${say(mutex) === run.none ? "free" : `of thread ${say(mutex)}`}, groups ${say(groups)}, writers ${say(writers)}.`,
      ...listed.filter(([, who]) => who.length).map(([each, who]) => `Threads ${each}: ${who.join(", ")}.`),
    ].join(" ");
  }
}

// ---- The ticket lock: its two numbers, and the threads that hold or wait, in the order of their tickets.

const SLOT = 46;
class TicketDrawing {
  constructor() {
    this.section = add(byId("states"), "section", { class: "card lock", "aria-label": lockName(0) });
    add(this.section, "h2", {}, lockName(0));
    this.frame = add(this.section, "div");
  }

  build(total) {
    SIZE = ROOMY;
    this.frame.replaceChildren();
    this.svg = add(this.frame, "svg", { role: "img", class: "roomy tickets" });
    const w = Math.min(140, (total - BESIDE) / 2), h = SIZE.head, box = (i) => ({ x: 1 + i * (w + BESIDE), y: 2, w, h });
    this.grant = addValue(this.svg, box(0), "grant", TICKETS.grant);
    this.next = addValue(this.svg, box(1), "next ticket", TICKETS.next);
    add(this.svg, "text", { class: "title", x: 1, y: h + 26 }, "who holds or waits, by ticket");
    this.chipsTop = h + 36;
    this.across = Math.max(1, Math.floor(total / SLOT));
    const bottom = this.chipsTop + Math.max(1, Math.ceil(mostCount[0] / this.across)) * SLOT;
    set(this.svg, { viewBox: `0 0 ${total} ${bottom}`, width: total, height: bottom });
    this.chips = range(threads).map((t) => {
      const element = add(this.svg, "g");
      add(element, "rect", { x: SLOT / 2 - 13, width: SIZE.chip - 2, height: SIZE.chipBox });
      add(element, "text", { x: SLOT / 2 - 1, y: SIZE.chipBox - SIZE.chipLow }, String(t));
      return { element, ticket: add(element, "text", { class: "of", x: SLOT / 2 - 1, y: SIZE.chipBox + 12 }) };
    });
  }

  draw(at) {
    const number = (t) => valueAt(at, TICKETS.ticket(t)), grant = valueAt(at, TICKETS.grant);
    // Counted round the wrap from the grant on.
    const place = (t) => (number(t) - grant) & 0xffff;
    const here = range(threads).filter((t) => valueAt(at, TICKETS.standing(t)) > 0).sort((one, other) => place(one) - place(other));
    this.chips.forEach(({ element, ticket }, t) => {
      const i = here.indexOf(t), standing = run.standings[valueAt(at, TICKETS.standing(t))];
      element.setAttribute("class", `chip ${standing}${i < 0 ? " away" : ""}${at > 0 && threadAt(at) === t ? " now" : ""}`);
      if (i < 0) return;
      element.style.transform = `translate(${(i % this.across) * SLOT}px, ${this.chipsTop + Math.floor(i / this.across) * SLOT}px)`;
      ticket.textContent = number(t);
    });
    const words = here.map((t) => `thread ${t} ${run.standings[valueAt(at, TICKETS.standing(t))]} with ticket ${number(t)}`);
    this.svg.setAttribute("aria-label", `Grant ${grant}, next ticket ${valueAt(at, TICKETS.next)}. ${words.join(", ") || "Nobody holds or waits"}.`);
  }
}

// ---- The threads' standings, beside their lanes.

const threadLines = range(threads).map(() => []);
const threadCells = fieldsOf.map(() => []);

function addThreadTable(parent, of) {
  const head = add(parent, "thead"), body = add(parent, "tbody");
  // The ticket lock has no swaps that fail.
  const columns = isTickets ? 2 : 3;
  if (of === used) addChartNames(add(add(head, "tr", { class: "charts" }), "td", { colspan: 1 + columns * of.length }));
  const names = add(head, "tr", { class: "names" });
  add(names, "th", { scope: "col", class: "number" }, "thread");
  for (const lock of of) {
    for (const [name, full] of [["standing", "standing"], ["ticket", "ticket"], ["failed", "failed swaps"]].slice(0, columns)) {
      const label = of.length > 1 ? `${lockName(lock)}: ${full}` : full;
      const head = add(names, "th", { scope: "col", "aria-label": label, title: label, class: name });
      if (name !== "standing") head.textContent = name;
      else {
        add(head, "span", { class: "long" }, of.length > 1 ? lockName(lock) : name);
        add(head, "span", { class: "short" }, of.length > 1 ? ["1st", "2nd"][lock] : "");
      }
    }
  }
  for (let t = 0; t < threads; t++) {
    const line = add(body, "tr");
    threadLines[t].push(line);
    const number = add(line, "th", { scope: "row", class: "number" }, String(t));
    for (const lock of of) {
      const fields = fieldsOf[lock];
      const standing = add(line, "td", { class: "standing" }), ticket = add(line, "td", { class: "ticket" });
      bind(fields.standing(t), standing, {
        say: (value) => run.standings[value],
        also: (value) => (standing.dataset.standing = run.standings[value]),
      });
      bind(fields.ticket(t), ticket, { say: (value) => (value === run.none ? "-" : String(value)) });
      threadCells[lock].push({ number, standing, ticket });
      if (isTickets) continue;
      const failed = add(line, "td", { class: "failed" });
      bind(fields.failures(t), failed, { also: (value) => failed.classList.toggle("some", value > 0) });
      threadCells[lock].at(-1).failed = failed;
    }
  }
}

function addChartNames(cell) {
  for (const lock of used) {
    const names = add(cell, "div", { class: "chart-name" });
    add(names, "b", {}, isTickets ? "Threads" : used.length > 1 ? `${lockName(lock)}: root's count` : "Root's count");
    for (const [name, said] of isTickets ? [["direct", "holding"], ["tree", "waiting"]] : ["direct", "tree", "closed"].map((each) => [each, each])) {
      const item = add(names, "span", { class: "key" });
      add(add(item, "svg", { viewBox: "0 0 14 10", "aria-hidden": "true" }), "rect", { class: name, width: 14, height: 10 });
      item.append(said);
    }
  }
}

// ---- The lanes, with the root's count above them: a window of rows, or all of them.

const CHART = 58, AXIS = 20;
// Points for a row: at most, what is chosen where the run does not fit, and the least at which it is said to fit.
const MOST = 56, USUAL = 9, LEAST = 4;
// From so many points on a row's words have their usual size; and the height of their cell.
const WORDS = 42, CELL = 30;
// How much of a lane's height each standing takes, so that they differ in shape and not in colour alone.
const SHARE = isTickets ? [0.08, 0.5, 0.5, 0.8] : [0.08, 0.8, 0.8, 0.5, 0.5];
const lanesTop = used.length * CHART + AXIS;
// The rows at which a watched condition comes true (play.js).
let flagged = [];
const lanes = { total: 0, high: 0, pixels: 0, first: 0, stale: true };

// The scale at which the whole run fits; while a run grows, one that stays for some rows.
const fitting = () => {
  const exact = Math.min(lanes.total / (last + 1), MOST);
  return isLive ? MOST * 0.8 ** Math.ceil(Math.log(exact / MOST) / Math.log(0.8)) : exact;
};
function scaleLanes(onPaper) {
  lanes.pixels = onPaper ? fitting() : clamp(lanes.chosen ?? (fitting() < LEAST ? USUAL : 0), fitting(), MOST);
  lanes.stale = true;
}
const visible = () => lanes.total / lanes.pixels;
const xOf = (at) => tenth((at - lanes.first) * lanes.pixels);
// The middle of a lane, or of a lock's half of it.
const partHigh = () => lanes.high / used.length;
const yOf = (thread, part) => tenth(thread * lanes.high + (part + 0.5) * partHigh());

function buildLanes(total, room, onPaper) {
  lanes.total = total;
  lanes.strip = 0;
  lanes.high = Math.floor(clamp((room - lanesTop) / threads, onPaper ? 7 : used.length > 1 ? 16 : 13, used.length > 1 ? 44 : 38));
  scaleLanes(onPaper);
  const style = byId("threads").style;
  style.setProperty("--lane", `${lanes.high}px`);
  style.setProperty("--chart", `${CHART}px`);
  style.setProperty("--axis", `${AXIS}px`);
  style.setProperty("--letters", `${clamp(lanes.high - 3, 7, 13)}px`);
  byId("drawing").replaceChildren();
  const picture = (parent, high, label) => add(parent, "svg", { width: total, height: high, viewBox: `0 0 ${total} ${high}`, role: "img", "aria-label": label });
  const head = picture(add(byId("drawing"), "div", { class: "charts" }), lanesTop, "The root's count, row by row.");
  const label = "The lanes of all threads, row by row. The table of threads and the list of rows say the same in words.";
  const svg = picture(byId("drawing"), threads * lanes.high, label);
  lanes.charts = used.map((lock, part) => {
    const chart = add(head, "g", { class: "chart", transform: `translate(0 ${part * CHART})` });
    const [closed, tree, direct, line] = ["closed", "tree", "direct", "line"].map((name) => add(chart, "path", { class: name }));
    return { lock, closed, tree, direct, line, grid: add(chart, "g", { class: "grid" }) };
  });
  lanes.axis = add(head, "g", { class: "axis" });
  add(svg, "path", { class: "stripes", d: range(threads).map((t) => `M0 ${t * lanes.high - 0.5}H${total}`).join("") });
  const standings = add(svg, "g", { class: "standings" });
  lanes.standings = run.standings.map((name) => add(standings, "path", { class: name }));
  [lanes.core, lanes.dots, lanes.words] = [["path", "core"], ["path", "dots"], ["g", "words"]].map(([name, group]) => add(svg, name, { class: group }));
  for (const name of ["holds", "fails", "booked", "repeated", "denied"]) lanes[name] = add(svg, "path", { class: name });
  // Apart from the lanes, so that these are not painted again when it moves.
  lanes.now = add(byId("drawing"), "div", { class: "now" });
  buildOverview();
}

// Keeps the row in the window. Near an edge the window moves on by more than half, so that most steps leave it as it is.
function follow(at) {
  const shown = visible(), margin = Math.min(shown / 8, 8);
  let first = lanes.first;
  if (at < first + margin) first = at - shown * 0.7;
  else if (at + 1 > first + shown - margin) first = at - shown * 0.3;
  first = Math.round(clamp(first, 0, Math.max(0, last + 1 - shown)));
  if (first === lanes.first && !lanes.stale) return;
  lanes.first = first;
  lanes.stale = false;
  const to = Math.min(last, Math.ceil(first + shown));
  drawStandings(first, to);
  drawSteps(Math.max(1, first), to);
  for (const chart of lanes.charts) drawChart(chart, first, to);
  drawAxis(Math.max(1, first), to);
  if (!byId("overview").hidden) set(lanes.frame, { x: tenth(first * lanes.scale), width: tenth(Math.max(3, shown * lanes.scale)) });
}

function drawStandings(from, to) {
  const paths = run.standings.map(() => []), core = [];
  used.forEach((lock, part) => {
    for (let t = 0; t < threads; t++) {
      const list = stretches[lock][t], middle = yOf(t, part);
      for (let i = 0; i < list.length && list[i][0] <= to; i++) {
        const end = i + 1 < list.length ? list[i + 1][0] : last + 1;
        if (end <= from) continue;
        const standing = list[i][1], x = xOf(Math.max(list[i][0], from)), w = tenth(xOf(Math.min(end, to + 1)) - x);
        const bar = (h) => `M${x} ${tenth(middle - h / 2)}h${w}v${tenth(h)}h${-w}z`;
        paths[standing].push(bar(Math.max(1, SHARE[standing] * partHigh())));
        if (standing === (isTickets ? HOLDING : WRITING)) core.push(bar(Math.max(1, SHARE[standing] * partHigh() * 0.08)));
      }
    }
  });
  lanes.standings.forEach((path, standing) => path.setAttribute("d", paths[standing].join("")));
  lanes.core.setAttribute("d", core.join(""));
}

// A dot for each row, a cross where a swap failed, a diamond where it was held up; words where there is room for them.
function drawSteps(from, to) {
  const inWords = lanes.pixels >= 30 && partHigh() >= CELL;
  // A mark in words is on the upper edge of its cell, above the words.
  const s = inWords ? 2.4 : tenth(clamp(Math.min(lanes.pixels * 0.42, partHigh() * 0.3), 2.2, 4.5)), d = Math.min(1.2, lanes.pixels / 4);
  const paths = { dots: [], fails: [], holds: [], booked: [], repeated: [], denied: [] };
  const bar = (x, y) => `M${tenth(x - 0.7 * s)} ${tenth(y + 0.7 * s)}l${tenth(1.4 * s)} ${tenth(-1.4 * s)}`;
  const circle = (x, y) => `M${tenth(x - s)} ${y}a${s} ${s} 0 1 0 ${2 * s} 0a${s} ${s} 0 1 0 ${-2 * s} 0z`;
  lanes.words.replaceChildren();
  lanes.words.classList.toggle("small", lanes.pixels < WORDS);
  for (let at = from; at <= to && !isRefused(at); at++) {
    const x = xOf(at + 0.5), middle = yOf(threadAt(at), used.indexOf(lockAt(at))), y = inWords ? tenth(middle - CELL / 2) : middle, kind = kindAt(at);
    if (inWords) addCell(at, x, middle);
    if (kind === FAILED) paths.fails.push(`M${tenth(x - s)} ${tenth(y - s)}l${2 * s} ${2 * s}m0 ${-2 * s}l${-2 * s} ${2 * s}`);
    else if (kind === HELD_UP) paths.holds.push(`M${x} ${tenth(y - s)}l${s} ${s}l${-s} ${s}l${-s} ${-s}z`);
    else if (kind >= BOOKED && !isTickets) paths[CLASSES[kind]].push(circle(x, y) + (kind === DENIED ? bar(x, y) : ""));
    else if (!inWords && lanes.pixels > 3) paths.dots.push(`M${tenth(x - d)} ${tenth(y - d)}h${2 * d}v${2 * d}h${-2 * d}z`);
  }
  for (const name in paths) lanes[name].setAttribute("d", paths[name].join(""));
}

function addCell(at, x, y) {
  const word = wordAt(at), isBooking = kindAt(at) >= BOOKED && !isTickets;
  const name = isBooking ? bookingName(at) : word === 0 ? "root" : word < QUEUE ? `${lanes.pixels < WORDS ? "n" : "node"} ${word}` : "";
  const cell = add(lanes.words, "g", { class: classAt(at) });
  add(cell, "rect", { x: tenth(x - lanes.pixels / 2 + 1), y: tenth(y - CELL / 2), width: tenth(lanes.pixels - 2), height: CELL, rx: 3 });
  add(cell, "text", { x, y: tenth(name ? y - 0.3 : y + 3.5) }, CELLS[kindAt(at)]);
  if (name) add(cell, "text", { x, y: tenth(y + 10), class: "name" }, name);
}

// A booking's amount and its room, as far as there is room for them in a cell.
function bookingName(at) {
  const [room, amount] = run.entries[entryAt(at)], fits = (text) => text.length * 5.4 < lanes.pixels;
  return [`${signed(amount)} r${room}`, signed(amount)].find(fits) ?? "";
}

// A line that keeps each state's height for the state's width.
function stairs(from, to, heightAt) {
  let path = "", before = null;
  for (let at = from; at <= to; at++) {
    const y = heightAt(at);
    if (y !== before) path += before === null ? `M${xOf(at)} ${y}` : `H${xOf(at)}V${y}`;
    before = y;
  }
  return `${path}H${xOf(to + 1)}`;
}

function drawChart({ lock, grid, closed, tree, direct, line }, from, to) {
  const most = mostCount[lock], bottom = CHART - 5, high = CHART - 17;
  const y = (count) => tenth(bottom - (count / most) * high);
  const area = (path) => `${path}V${bottom}H${xOf(from)}z`;
  const all = stairs(from, to, (at) => y(countAt(lock, at)));
  tree.setAttribute("d", area(all));
  line.setAttribute("d", all);
  direct.setAttribute("d", area(stairs(from, to, (at) => y(directAt(lock, at)))));
  closed.setAttribute("d", area(stairs(from, to, (at) => (closedAt(lock, at) ? 3 : bottom))));
  grid.replaceChildren();
  for (const count of new Set([0, Math.floor(most / 2), most])) {
    add(grid, "path", { d: `M0 ${y(count)}H${lanes.total}` });
    add(grid, "text", { x: 2, y: y(count) - 2 }, String(count));
  }
}

function drawAxis(from, to) {
  const step = [1, 2, 5, 10, 20, 50, 100, 200, 500].find((each) => each * lanes.pixels >= 30) ?? 1000;
  lanes.axis.replaceChildren();
  for (let row = Math.ceil((from - 1) / step) * step; row < to; row += step) add(lanes.axis, "text", { x: xOf(row + 1.5), y: lanesTop - 6 }, String(row));
  for (const at of flagged) if (at >= from - 1 && at <= to) add(lanes.axis, "text", { class: "flag", x: xOf(at + 0.5), y: 12 }, "\u2691");
}

// The whole run in a strip, where the lanes show a part of it.
function buildOverview() {
  const strip = byId("overview");
  strip.replaceChildren();
  strip.hidden = lanes.pixels <= fitting() * 1.001;
  if (strip.hidden) return;
  // Asked once for a layout: a growing run draws this with every row.
  const total = (lanes.strip ||= strip.clientWidth), high = 30, scale = total / (last + 1), label = "The whole run: the root's count, and failed swaps.";
  const svg = add(strip, "svg", { width: total, height: high, viewBox: `0 0 ${total} ${high}`, role: "img", "aria-label": label });
  // For each point across, the highest count of its rows.
  let path = `M0 ${high}`;
  for (let x = 0; x < total; x++) {
    let most = 0;
    for (let at = Math.floor(x / scale); at <= Math.min(last, Math.floor((x + 1) / scale)); at++) most = Math.max(most, countAt(0, at));
    path += `V${tenth(high - (most / mostCount[0]) * (high - 8))}H${x + 1}`;
  }
  add(svg, "path", { class: "count", d: `${path}V${high}z` });
  add(svg, "path", { class: "rug", d: [...new Set(fails.map((at) => Math.round(at * scale)))].map((x) => `M${x + 0.5} 0v5`).join("") });
  add(svg, "text", { x: 3, y: 14 }, "whole run");
  lanes.scale = scale;
  lanes.frame = add(svg, "rect", { class: "frame", y: 0.5, height: high - 1 });
  lanes.overviewNow = add(svg, "path", { class: "now", d: `M0 0v${high}` });
}

function drawLanes(at) {
  follow(at);
  const wide = Math.max(lanes.pixels, 3);
  lanes.now.style.width = `${tenth(wide)}px`;
  lanes.now.style.transform = `translateX(${tenth(xOf(at + 0.5) - wide / 2)}px)`;
  if (!byId("overview").hidden) lanes.overviewNow.setAttribute("transform", `translate(${tenth((at + 0.5) * lanes.scale)} 0)`);
  showLane(at);
}

// Keeps the lane of the row's thread in view, below the charts.
function showLane(at) {
  if (at === 0 || !lanes.hidden || !(threadAt(at) < threads)) return;
  const top = threadAt(at) * lanes.high, room = lanes.view - lanesTop, from = lanes.scrolled;
  if (top < from || top + lanes.high > from + room) byId("lanes").scrollTop = top - (room - lanes.high) / 2;
}

function zoom(pixels) {
  lanes.pixels = lanes.chosen = clamp(pixels, fitting(), MOST);
  lanes.stale = true;
  buildOverview();
  drawLanes(current);
  drawZoom();
}
function drawZoom() {
  byId("closer").disabled = lanes.pixels >= MOST;
  byId("wider").disabled = byId("all").disabled = byId("overview").hidden;
}

// ---- Balances.

const roomCells = range(rooms).map((room) => {
  const item = add(byId("rooms").querySelector("ul"), "li"), name = add(item, "span", { class: "name" }, "room ");
  const number = add(name, "span", {}, String(room)), balance = add(item, "b");
  bind(roomField(room), balance, { mark: item });
  return { number, balance };
});

// The entries of the till, and the rows that booked them.
const entryItems = run.entries.map(([room, amount], entry) => {
  const item = add(byId("entries"), "li");
  add(item, "span", { class: "name" }, `entry ${entry}`);
  add(item, "b", {}, signed(amount));
  item.append(` room ${room} `);
  return { item, row: add(item, "span", { class: "row" }) };
});
function drawEntries(at) {
  const booked = new Map();
  for (let each = 1; each <= Math.min(at, run.kind.length); each++) if (kindAt(each) === BOOKED) booked.set(entryAt(each), each - 1);
  entryItems.forEach(({ item, row }, entry) => {
    item.classList.toggle("booked", booked.has(entry));
    row.textContent = booked.has(entry) ? `booked in row ${booked.get(entry)}` : "not booked";
  });
}

// ---- The list of rows.

const ROW = 22, PART = 64;
const items = [];
// Lists the rows from one on, which are new: in parts, of which the browser lays out those in sight.
function listRows(from) {
  const parts = [...byId("list").children], added = document.createDocumentFragment();
  for (const link of items.splice(from)) link.parentNode.remove();
  for (let first = from - (from % PART); first <= last; first += PART) {
    const end = Math.min(first + PART, last + 1), part = parts[first / PART] ?? added.appendChild(document.createElement("ol"));
    part.style.setProperty("--rows", end - first);
    for (let at = Math.max(first, from); at < end; at++) {
      const link = add(add(part, "li"), "a", { href: linkTo(at), tabindex: -1, class: classAt(at) });
      const texts = at === 0 ? ["", "", "the fresh lock"] : [at - 1, threadAt(at), `${orderAt(at)}: ${saidAt(at)}`];
      ["row", "who", "what"].forEach((name, i) => add(link, "span", { class: name }, String(texts[i])));
      items.push(link);
    }
  }
  for (const part of parts) if (!part.firstChild) part.remove();
  byId("list").append(added);
}
listRows(0);

let listHigh = 0;
function drawList(at, top) {
  const before = items[drawn], now = items[at];
  if (before && before !== now) {
    before.removeAttribute("aria-current");
    before.tabIndex = -1;
  }
  now.setAttribute("aria-current", "step");
  now.tabIndex = 0;
  if (before && before === document.activeElement) now.focus({ preventScroll: true });
  if (at * ROW < top + ROW || (at + 2) * ROW > top + listHigh) byId("list").scrollTop = (at - Math.floor(listHigh / ROW / 2)) * ROW;
}

// ---- The sheet at this row, read back from what is drawn.

function sheetText() {
  const said = (...elements) => elements.map((element) => element.textContent).join(" ");
  const lines = [`answer ${said(byId("answer"))} at ${said(byId("taken"))}`];
  if (isTickets) {
    lines.push(`ticket ${said(drawings[0].next)}`, `grant ${said(drawings[0].grant)}`);
    for (const { number, standing } of threadCells[0]) lines.push(`thread ${said(number, standing)}`);
    return lines.map((line) => `${line}\n`).join("");
  }
  for (const { lock, direct, tree, flag, numbers, counts, mutex, groups, writers } of drawings) {
    lines.push(`root ${said(direct, tree, flag)}`);
    for (let n = 1; n < nodes; n++) lines.push(`node ${said(numbers[n], counts[n])}`);
    lines.push(`queue ${said(mutex, groups, writers)}`);
    for (const { number, standing, ticket, failed } of threadCells[lock]) lines.push(`thread ${said(number, standing, ticket, failed)}`);
  }
  for (const { number, balance } of roomCells) lines.push(`room ${said(number, balance)}`);
  return lines.map((line) => `${line}\n`).join("");
}

// ---- Stepping.

const drawings = isTickets ? [new TicketDrawing()] : range(locks).map((lock) => new LockDrawing(lock));
const shown = new Int32Array(width);
let current = 0, drawn = -1, drawnTime = 0, due = false, marked = [];

function go(at) {
  current = clamp(Math.round(at) || 0, 0, last);
  if (due) return;
  due = true;
  requestAnimationFrame(draw);
}

// How far the parts are scrolled: what is read comes before what is written, so that the page is laid out once.
function readScrolls() {
  lanes.scrolled = lanes.hidden ? byId("lanes").scrollTop : 0;
  return byId("list").scrollTop;
}

function draw(_, top = readScrolls()) {
  due = false;
  const at = current, now = performance.now();
  document.body.classList.toggle("quick", now - drawnTime < 250);
  drawnTime = now;
  for (let field = 0; field < width; field++) {
    const value = valueAt(at, field);
    if (drawn >= 0 && value === shown[field]) continue;
    draws[field](value);
    shown[field] = value;
  }
  drawMarks(at);
  for (const drawing of drawings) drawing.draw(at);
  drawSaid(at);
  drawControls(at);
  drawList(at, top);
  drawLanes(at);
  if (entryItems.length) drawEntries(at);
  if (byId("sheet").open) byId("text").textContent = sheetText();
  drawn = at;
  keepLink();
  onDrawn(at);
}
// What else follows the row (play.js).
let onDrawn = () => {};

// Marks what the row changed, and whose row it is.
function drawMarks(at) {
  for (const element of marked) element.classList.remove("changed", "moved");
  marked = [];
  if (at === 0) return;
  const change = run.changes[at - 1];
  for (let k = 0; k < change.length; k += 2) if (change[k] !== TAKEN) marked.push(markable[change[k]]);
  for (const element of marked) element.classList.add("changed");
  for (const line of threadLines[threadAt(at)] ?? []) {
    line.classList.add("moved");
    marked.push(line);
  }
}

const [saidRow, saidWho, saidOrder, saidWhat, saidStuck] = byId("said").children;
function drawSaid(at) {
  saidRow.textContent = at === 0 ? "" : `Row ${at - 1}`;
  saidWho.textContent = at === 0 ? "" : `thread ${threadAt(at)}`;
  saidOrder.textContent = at === 0 ? "" : orderAt(at);
  saidWhat.textContent = at === 0 ? "The fresh lock, before the first row" : saidAt(at);
  saidStuck.textContent = run.stuck && at >= run.kind.length ? run.stuck : "";
  byId("said").className = classAt(at);
}

const next = (list, at) => list.find((each) => each > at);
const previous = (list, at) => list.findLast((each) => each < at);

function drawControls(at) {
  byId("slider").value = at;
  byId("slider").setAttribute("aria-valuetext", at === 0 ? "the fresh lock" : `row ${at - 1}`);
  if (byId("number") !== document.activeElement) byId("number").value = at === 0 ? "" : at - 1;
  byId("link").href = linkTo(at);
  byId("first").disabled = byId("back").disabled = at === 0;
  byId("last").disabled = byId("on").disabled = at === last;
  byId("fail-back").disabled = previous(fails, at) === undefined;
  byId("fail-on").disabled = next(fails, at) === undefined;
  byId("hold-back").disabled = previous(holds, at) === undefined;
  byId("hold-on").disabled = next(holds, at) === undefined;
}

// The address names the row, once stepping rests: browsers allow few changes of it a second.
let resting = 0;
// The address as the page last took or gave it. Where it is another, a link was followed and is not yet told of: it stays.
let address = location.hash;
function keepLink() {
  clearTimeout(resting);
  resting = setTimeout(() => {
    if (location.hash === address && location.hash !== addressOf(drawn) && (isLive || linked() !== drawn)) {
      history.replaceState(null, "", addressOf(drawn));
      address = location.hash;
    }
    byId("link").href = addressOf(drawn);
    document.title = drawn === 0 ? run.title : `${run.title}, row ${drawn - 1}`;
  }, 200);
}
function linkTo(at) {
  return at === 0 ? "#fresh" : `#row=${at - 1}`;
}
// The address of a row; where the run grows it holds the run too (play.js).
let addressOf = linkTo;
function linked() {
  const found = /^#row=(\d{1,6})(?:&|$)/.exec(location.hash);
  const row = found ? Number(found[1]) : /^#fresh(?:&|$)/.test(location.hash) ? null : run.opened;
  return row === null ? 0 : Math.min(row + 1, last);
}

// ---- What the reader does.

const tenthOfRun = () => Math.max(1, Math.round(last / 10));
const KEYS = {
  ArrowRight: () => current + 1,
  ArrowDown: () => current + 1,
  ArrowLeft: () => current - 1,
  ArrowUp: () => current - 1,
  PageDown: () => current + tenthOfRun(),
  PageUp: () => current - tenthOfRun(),
  Home: () => 0,
  End: () => last,
};
const SHIFTED = {
  ArrowRight: () => next(fails, current),
  ArrowLeft: () => previous(fails, current),
  ArrowDown: () => next(holds, current),
  ArrowUp: () => previous(holds, current),
};
document.addEventListener("keydown", (event) => {
  if (event.altKey || event.ctrlKey || event.metaKey || event.target.matches("input, pre, select, textarea")) return;
  const to = (event.shiftKey ? SHIFTED : KEYS)[event.key];
  if (!to) return;
  event.preventDefault();
  go(to() ?? current);
});

const press = (id, to) => byId(id).addEventListener("click", () => go(to() ?? current));
press("first", KEYS.Home);
press("back", KEYS.ArrowLeft);
press("on", KEYS.ArrowRight);
press("last", KEYS.End);
press("fail-back", SHIFTED.ArrowLeft);
press("fail-on", SHIFTED.ArrowRight);
press("hold-back", SHIFTED.ArrowUp);
press("hold-on", SHIFTED.ArrowDown);
byId("slider").addEventListener("input", (event) => go(event.target.valueAsNumber));
byId("number").addEventListener("change", (event) => go(event.target.valueAsNumber + 1));
byId("closer").addEventListener("click", () => zoom(lanes.pixels * 1.6));
byId("wider").addEventListener("click", () => zoom(lanes.pixels / 1.6));
byId("all").addEventListener("click", () => zoom(0));
byId("sheet").addEventListener("toggle", () => (byId("text").textContent = byId("sheet").open ? sheetText() : ""));
window.addEventListener("hashchange", () => {
  address = location.hash;
  go(linked());
});

// A click, or a drag, in a drawing goes to the row whose place it is.
function seek(element, placeAt) {
  const to = (event) => go(Math.floor(placeAt(event.clientX - element.getBoundingClientRect().left)));
  element.addEventListener("pointerdown", (event) => {
    if (event.button !== 0) return;
    element.setPointerCapture(event.pointerId);
    to(event);
  });
  element.addEventListener("pointermove", (event) => {
    if (event.buttons & 1) to(event);
  });
}
const laneAt = (x) => lanes.first + x / lanes.pixels;
seek(byId("drawing"), laneAt);
seek(byId("overview"), (x) => x / lanes.scale);

// What the row under the pointer did.
byId("drawing").addEventListener("pointermove", (event) => {
  const at = Math.floor(laneAt(event.clientX - byId("drawing").getBoundingClientRect().left)), tip = byId("tip");
  tip.hidden = at < 1 || at > last;
  if (tip.hidden) return;
  tip.textContent = `row ${at - 1}, thread ${threadAt(at)}, ${orderAt(at)}: ${saidAt(at)}`;
  tip.style.left = `${Math.min(event.clientX + 14, innerWidth - tip.offsetWidth - 8)}px`;
  tip.style.top = `${Math.min(event.clientY + 16, innerHeight - tip.offsetHeight - 8)}px`;
});
byId("drawing").addEventListener("pointerleave", () => (byId("tip").hidden = true));

// ---- Laying out: at first, when the window changes, and for paper, which has the whole run and the rows about this one.

const GAP = 12, NEAR = 12, PAPER = 690;
// Above this width there are two columns; below, one, whose list has so many rows. In a column so many are in view at least.
const BOTH = 900, LISTED = 12, IN_VIEW = 8;
function layOut(onPaper) {
  const isBeside = !onPaper && innerWidth > BOTH, body = document.body;
  body.classList.toggle("paper", onPaper);
  body.classList.toggle("beside", isBeside);
  const top = (id) => byId(id).getBoundingClientRect().top;
  // In one column the title goes out of view.
  const up = isBeside || onPaper ? 0 : top("head") + byId("head").offsetHeight - top("bar");
  body.style.setProperty("--up", `${-up}px`);
  const bar = byId("bar").offsetHeight - up, room = (onPaper ? PAPER : innerHeight - bar) - 2 * GAP;
  body.style.setProperty("--bar", `${bar}px`);
  layOutStates(isBeside, room);
  // What stands above the lanes in their column: the panel of a live page, and the list of rows, which has no height yet.
  const isTall = body.classList.contains("tall"), listAbove = isTall ? byId("list").parentNode.offsetHeight + Math.min(listed(), IN_VIEW) * ROW + GAP : 0;
  const above = isBeside ? listAbove + (isLive ? byId("panel").offsetHeight + GAP : 0) : 0;
  buildLanes(Math.max(120, byId("drawing").clientWidth), room - above - 60, onPaper);
  layOutLanes(isBeside ? room - above - (top("lanes") - top("time")) - GAP : Infinity);
  items.forEach((link, at) => (link.parentNode.hidden = onPaper && Math.abs(at - current) > NEAR));
  layOutList(isBeside, room, onPaper);
  drawn = -1;
  // Nothing moves to its place when a page is laid out.
  drawnTime = performance.now();
  draw();
  drawZoom();
}

// Lanes that do not fit the window are scrolled, and the lane of the row's thread is kept in view.
function layOutLanes(room) {
  const whole = lanesTop + threads * lanes.high;
  document.body.style.setProperty("--lanes", `${Math.max(lanesTop + 4 * lanes.high, room)}px`);
  lanes.hidden = whole > room;
  lanes.view = Math.min(whole, Math.max(lanesTop + 4 * lanes.high, room));
}

// The locks stand above the list of rows. Where they leave too little of the window for it, the list goes to the other column; where they do not fit the window
// even so, they are drawn small; and where they do not fit then, they are scrolled with the page.
function layOutStates(isBeside, room) {
  const states = byId("states"), body = document.body;
  const build = (isTall, small) => {
    body.classList.toggle("tall", isTall);
    isSmall = small;
    for (const drawing of drawings) drawing.build(Math.max(drawing.section.clientWidth - 2 * GAP, 280));
    return states.offsetHeight;
  };
  body.classList.remove("loose");
  byId("list").style.height = "0";
  const high = build(false, false);
  if (!isBeside || high + byId("locks").offsetHeight - states.offsetHeight + Math.min(listed(), IN_VIEW) * ROW <= room) return;
  if (build(true, false) > room && build(true, true) > room) body.classList.add("loose");
}

// How many rows the list may have room for; a run that grows has more.
const listed = () => (isLive ? Infinity : last + 1);

function layOutList(isBeside, room, onPaper) {
  const list = byId("list"), isTall = document.body.classList.contains("tall");
  list.style.height = onPaper ? "auto" : "0";
  const rows = isTall ? IN_VIEW : isBeside ? Math.floor((room - byId("locks").offsetHeight) / ROW) : LISTED;
  listHigh = clamp(rows, Math.min(listed(), isBeside ? IN_VIEW : 1), listed()) * ROW;
  if (!onPaper) list.style.height = `${listHigh}px`;
}

bind(ANSWER, byId("answer"));
bind(TAKEN, byId("taken"));
const some = (count, what) => `${count} ${what}${count === 1 ? "" : "s"}`;
const shape = isTickets ? [`start number ${run.start[TICKETS.next]}`] : [some(nodes, "node"), `fan-out ${fan}`];
byId("fails").closest(".jump").hidden = isTickets;
for (const guide of document.querySelectorAll("dl, .of-locks")) guide.hidden = guide.classList.contains("of-tickets") !== isTickets;
// What is said of the run as a whole.
function sayCounts() {
  byId("facts").textContent = [...shape, some(threads, "thread"), some(run.fileRows, "row")].join(", ");
  byId("rows").textContent = last === 0 ? "none" : `0\u2013${last - 1}`;
  set(byId("slider"), { max: last });
  set(byId("number"), { max: Math.max(0, last - 1) });
  for (const [id, list, what] of [["fails", fails, "failed swap"], ["holds", holds, isTickets ? "wait" : "hold-up"]]) {
    const [count, ...words] = some(list.length, what).split(" ");
    byId(id).textContent = count;
    byId(id).nextElementSibling.textContent = words.join(" ");
  }
}
sayCounts();
byId("rooms").hidden = rooms === 0;
byId("sheet").open = byId("help").open = locks * (nodes + threads) + rooms <= 24;
addThreadTable(byId("threads"), used);
for (const name of isTickets ? ["idle", "far", "near", "holding"] : ["idle", "calling", "reading", "writing", "asleep"]) {
  const item = add(byId("legend"), "span"), swatch = add(item, "svg", { viewBox: "0 0 18 12", "aria-hidden": "true" });
  const bar = (kind, high) => add(swatch, "rect", { class: kind, width: 18, height: high, y: 6 - high / 2 });
  bar(name, Math.max(2, 12 * SHARE[run.standings.indexOf(name)]));
  if (name === "writing" || name === "holding") bar("core", 1.5);
  item.append(name);
}

current = linked();
layOut(false);
let sizing = 0;
window.addEventListener("resize", () => {
  cancelAnimationFrame(sizing);
  sizing = requestAnimationFrame(() => layOut(false));
});
window.addEventListener("beforeprint", () => layOut(true));
window.addEventListener("afterprint", () => layOut(false));
requestAnimationFrame(() => performance.mark("drawn"));
