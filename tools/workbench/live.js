// A network that is played in a page: the compiled machines and a session of them, which need no page, and then what is seen.
"use strict";
// ---- the compiled network

class Machine {
  constructor(exports, made) {
    Object.assign(this, made);
    for (const name of ["begin", "go"]) this[name] = exports[`${made.name}_${name}`];
    for (const name of ["input_at", "output_at", "state_at", "state_size"]) this[name] = exports[`${made.name}_${name}`]();
    this.memory = exports.memory;
    this.stack = exports.__stack_pointer;
    this.top = this.stack.value;
    this.view = new DataView(this.memory.buffer);
    this.read = readerOf(this.output, this.view);
  }

  step(dt, value) {
    this.stack.value = this.top;
    this.write(this.input_at, this.input, value);
    this.go(dt);
    return this.read(this.output_at);
  }

  write(at, type, value) {
    switch (type.sort) {
      case "Int": this.view.setBigInt64(at, value, true); break;
      case "Bool": this.view.setUint8(at, value ? 1 : 0); break;
      case "Unit": this.view.setUint8(at, 0); break;
      case "Pair": type.at.forEach((place, k) => this.write(at + place, type.parts[k], value[k])); break;
      case "Event":
        this.view.setUint8(at, value === null ? 0 : 1);
        if (value !== null) this.write(at + type.at[1], type.parts[0], value[0]);
        break;
      default:
        this.view.setUint32(at, value.length, true);
        value.forEach((one, k) => this.write(at + type.at[1] + k * type.parts[0].size, type.parts[0], one));
    }
  }

  save() { return new Uint8Array(this.memory.buffer, this.state_at, this.state_size).slice(); }

  restore(bytes) { new Uint8Array(this.memory.buffer, this.state_at, this.state_size).set(bytes); }
}

// What reads a value of a type where it stands.
function readerOf(type, view) {
  const [first, second] = type.parts.map(part => readerOf(part, view)), [, place] = type.at ?? [];
  switch (type.sort) {
    case "Int": return at => view.getBigInt64(at, true);
    case "Bool": return at => view.getUint8(at) !== 0;
    case "Unit": return () => "unit";
    case "Pair": return at => [first(at + type.at[0]), second(at + place)];
    case "Event": return at => (view.getUint8(at) ? [first(at + place)] : null);
    default: return at => {
      const found = [], {size} = type.parts[0];
      for (let left = view.getUint32(at, true), from = at + place; left; left -= 1, from += size) found.push(first(from));
      return found;
    };
  }
}

// The module and its machines; the first one is the network, and the others watch it.
async function machinesOf(page) {
  const bytes = Uint8Array.from(atob(page.module), letter => letter.charCodeAt(0));
  const {instance} = await WebAssembly.instantiate(bytes, {});
  return page.machines.map(made => new Machine(instance.exports, made));
}

// ---- what is played

// How many states are kept at most, and how many bytes they take.
const KEPT_STATES = 64, KEPT_BYTES = 2 ** 26;

class Session {
  // The first machine is the network; then there is one for each lamp, and then those that tell signals inside.
  constructor(page, machines) {
    this.machines = machines;
    this.main = machines[0];
    this.watching = machines.slice(1, 1 + page.lamps.length);
    this.telling = machines.slice(1 + page.lamps.length);
    this.page = page;
    this.given = [];
    this.fault = page.fault;
    this.load(page.stream);
    this.reset();
  }

  // Reads the stream that is replayed, up to a faulty line.
  load(text) {
    const lines = text.split("\n");
    if (lines[lines.length - 1] === "") lines.pop();
    for (const line of lines) {
      try {
        this.given.push(this.sampleOf(line));
      } catch (error) {
        if (!(error instanceof Refused)) throw error;
        this.fault = `stream: line ${this.given.length + 1}: ${error.message}`;
        return;
      }
    }
  }

  sampleOf(line) {
    const before = this.given[this.given.length - 1];
    if (!before) return {dt: 1n, value: valueOf(line, this.main.input), line};
    const found = /^\+([1-9][0-9]*) /.exec(line);
    if (!found) throw new Refused("step");
    const rest = line.slice(found[0].length);
    return {dt: stepOf(found[1]), value: rest === "=" ? before.value : valueOf(rest, this.main.input), line};
  }

  reset() {
    this.recording = [];
    this.states = [];
    this.apart = 256;
    this.byHand = !this.given.length;
    this.broken = null;
    this.begin();
  }

  begin() { for (const machine of this.machines) machine.begin(); }

  // The sample of the stream that comes next, where it isn't played by hand.
  replayed() { return this.byHand ? undefined : this.given[this.recording.length]; }

  // Plays a sample. What is refused, or goes wrong, leaves all as it was.
  play(dt, value, line) {
    if (this.recording.length >= MOST_SAMPLES) throw new Refused(`a recording has at most ${MOST_SAMPLES.toLocaleString("en")} samples`);
    const text = line ?? (this.recording.length ? `+${dt} ` : "") + spelt(value, this.main.input);
    if (text.length > LONGEST) throw new Refused("the sample's line is too long for a stream");
    if (this.recording.length % this.apart === 0) this.keep();
    try {
      this.recording.push({...this.stepped(dt, value), line: text});
    } catch (error) {
      this.back(this.recording.length);
      throw new Refused(`the compiled network was ended: ${error.message} (its values may be too large: --most makes lists shorter)`);
    }
    const sample = this.recording[this.recording.length - 1];
    const wrong = this.page.lamps.findIndex((lamp, k) => lamp.kind === "guarantee" && !sample.lamps[k]);
    if (wrong >= 0 && this.broken === null) this.broken = {name: this.page.lamps[wrong].name, sample: this.recording.length};
    return sample;
  }

  stepped(dt, value) {
    const before = this.recording[this.recording.length - 1];
    return {dt, value, ...this.told(dt, value), time: before ? BigInt.asIntN(64, before.time + dt) : 0n};
  }

  // What all machines tell of a sample.
  told(dt, value) {
    const output = this.main.step(dt, value), signals = [];
    const lamps = this.watching.map((machine, k) => machine.step(dt, this.page.lamps[k].kind === "assume" ? value : [value, output]));
    this.telling.forEach((machine, k) => takenOut(this.page.packs[k], machine.step(dt, value), signals));
    return {output, lamps, signals};
  }

  // What a signal is at a sample.
  signal(k, {number, members}) {
    const found = this.recording[k].signals[number];
    return members && found !== undefined && !(found instanceof Several) ? Several.of(found) : found;
  }

  // Keeps the state now and then; where there are many of them, every other one is enough.
  keep() {
    const count = this.recording.length, saved = this.machines.map(machine => machine.save());
    if (this.states[this.states.length - 1]?.count !== count) this.states.push({count, saved});
    if (this.states.length <= Math.min(KEPT_STATES, Math.max(KEPT_BYTES / saved.reduce((sum, one) => sum + one.length, 1), 2))) return;
    this.apart *= 2;
    this.states = this.states.filter(state => state.count % this.apart === 0);
  }

  // Goes back to where so many samples were played.
  back(count) {
    this.states = this.states.filter(state => state.count <= count);
    const last = this.states[this.states.length - 1];
    if (last) this.machines.forEach((machine, k) => machine.restore(last.saved[k]));
    else this.begin();
    this.recording.length = Math.min(count, this.recording.length);
    for (const one of this.recording.slice(last ? last.count : 0)) this.told(one.dt, one.value);
    if (this.broken && this.broken.sample > count) this.broken = null;
  }

  stream() { return this.recording.map(one => one.line + "\n").join(""); }

  outputs() { return this.recording.map(one => spelt(one.output, this.main.output) + "\n").join(""); }
}

// Takes the signals out of the value of a pack, each by its number: as `taken_out` of signals.py does.
function takenOut(pack, value, found) {
  if (typeof pack === "number") found[pack] = found[pack] === undefined ? value : found[pack];
  else if (Array.isArray(pack)) pack.forEach((one, k) => takenOut(one, value[k], found));
  else if (pack.sort === "Sometimes") value?.forEach(one => takenOut(pack.inner, one, found));
  else if (pack.sort === "Collection") value.forEach(one => takenOut(pack.inner, one[1], found));
  else {
    const rows = value.map(one => takenOut(pack.inner, one, []));
    for (const number of pack.leaves) found[number] = found[number] === undefined ? Several.from(rows, row => row[number]) : found[number];
  }
  return found;
}

function stepOf(text) {
  if (!/^[1-9][0-9]*$/.test(text)) throw new Refused("a step is a whole number of at least 1");
  if (text.length > 19 || BigInt(text) > GREATEST) throw new Refused(`a step is at most ${GREATEST}`);
  return BigInt(text);
}

// What is given by hand: a value for each column. An event is given once.
class Hand {
  constructor(type) {
    this.type = type;
    this.columns = columnsOf(type);
    this.values = this.columns.map(column => resting(column.type));
  }

  // Sets a column to what a text spells; of an event, to its value.
  set(number, text) {
    const {type} = this.columns[number];
    const isEvent = type.sort === "Event";
    const found = valueOf(text, isEvent ? type.parts[0] : type);
    this.values[number] = isEvent ? [found] : found;
  }

  // Takes over what a sample has, but for its events.
  follow(value) {
    this.columns.forEach((column, k) => { if (column.type.sort !== "Event") this.values[k] = reached(value, column.way); });
  }

  take() {
    const value = built(this.type, [...this.values]);
    this.columns.forEach((column, k) => { if (column.type.sort === "Event") this.values[k] = null; });
    return value;
  }
}

// Draws the output of a sample by a function of one's own, which can also ask for those so many samples before.
function drawWith(draws, session, number, canvas) {
  const before = ago => (session.recording[number - ago] ? plain(session.recording[number - ago].output, session.main.output) : undefined);
  draws(before(0), canvas, before);
}

// Between which numbers a slider goes: those of the stream and 0, or where there is none those of the file.
function spanOf(page, session, column) {
  const given = session.given.map(one => [reached(one.value, column.way)].flat()[0]).filter(one => typeof one === "bigint");
  const numbers = given.length ? given : page.span.map(BigInt);
  let [least, most] = [0n, 0n];
  for (const one of numbers) [least, most] = [one < least ? one : least, one > most ? one : most];
  return least === most ? [0, 10] : [Number(least), Number(most)];
}

// ---- what is seen

// Samples a second, how many thousandths of a second of a frame are played and how many panels are drawn in, how many samples are shown at first, and how many rows of
// signals inside.
const MOST_RATE = 100000, FRAME = 10, DRAWING = 1, SHOWN = 300, MOST_ROWS = 12;
const byId = name => document.getElementById(name);

// Puts a text into an element, where another one stands there.
function showText(node, text) { if (node.textContent !== text) node.textContent = text; }

class View {
  constructor(page, session) {
    Object.assign(this, {page, session, hand: new Hand(session.main.input), isRunning: false, dt: 1n, rate: page.rate, due: 0});
    this.controls = this.hand.columns.map((column, k) => this.control(column, k));
    byId("inputs").append(...this.controls.map(one => one.row));
    const columns = this.columns();
    this.rows = columns.filter(column => column.of !== "in").map(column => this.outputRow(column));
    this.startRows();
    this.lamps = page.lamps.map(lamp => element("span", {className: "lamp", textContent: lamp.name, title: lamp.kind}));
    byId("lamps").append(...this.lamps);
    const count = () => session.recording.length, time = k => Number(session.recording[k].time);
    const panels = columns.flatMap(({of, name, type, at, members}) => panelsOf(`${of} ${name}`, type, at, members));
    this.panels = new Panels(byId("panels"), panels, {count, time, span: SHOWN, cursorAt: () => { if (!this.isRunning) this.showSample(); }});
    this.bindClock();
    this.bindKeys();
    this.startPicture();
    this.tell(session.given.length ? `${session.given.length.toLocaleString("en")} samples are replayed; an input that is changed takes over` : "");
    this.refresh();
  }

  // What is played, put out and told inside, part by part: each with its value at a sample.
  columns() {
    const {session, page} = this, {recording} = session;
    const sides = [["in", "value", session.main.input, page.inputs], ["out", "output", session.main.output, page.outputs]];
    const ends = sides.flatMap(([of, part, type, names]) => columnsOf(type).map((column, k) => ({of, name: names[k], type: column.type, at: number => reached(recording[number][part], column.way)})));
    const inside = page.signals.flatMap(signal => {
      const {name, type, members} = signal, at = k => session.signal(k, signal);
      if (members) return [{of: "inside", name, type, members, at}];
      return columnsOf(type).map(column => ({of: "inside", name: column.name ? `${name}.${column.name}` : name, type: column.type, at: k => reached(at(k), column.way)}));
    });
    return [...ends, ...inside];
  }

  tell(text) { byId("told").textContent = [text, this.session.fault && `the stream ends at a fault: ${this.session.fault}`].filter(Boolean).join("; "); }

  // Does what may be refused; whether it was done.
  tried(work) {
    try {
      work();
      return true;
    } catch (error) {
      if (!(error instanceof Refused)) throw error;
      this.tell(error.message);
      return false;
    }
  }

  // ---- inputs

  control(column, k) {
    const {type} = column, isEvent = type.sort === "Event", inner = isEvent ? type.parts[0] : type;
    const row = element("div", {className: "input", title: type.shown}, element("label", {textContent: this.page.inputs[k]}));
    const parts = inner.sort === "Bool" && !isEvent ? this.switch(k) : inner.sort === "Unit" ? {} : inner.values ? this.choice(inner, k, isEvent) : this.field(column, k);
    row.append(...Object.values(parts));
    if (!isEvent) return {row, ...parts};
    const button = element("button", {type: "button", textContent: inner.sort === "Unit" ? this.page.inputs[k] : "send"});
    button.onclick = () => { this.put(k, parts.field?.value ?? "unit"); };
    row.append(button);
    return {row, ...parts, button};
  }

  switch(k) {
    const box = element("input", {type: "checkbox"});
    box.onchange = () => this.put(k, String(box.checked));
    return {box};
  }

  choice(type, k, isEvent) {
    const field = element("select", {}, ...type.values.map((name, number) => element("option", {value: number, textContent: name})));
    if (!isEvent) field.onchange = () => this.put(k, field.value);
    return {field};
  }

  field(column, k) {
    const isEvent = column.type.sort === "Event", type = isEvent ? column.type.parts[0] : column.type;
    const field = element("input", {type: "text", value: spelt(resting(type), type), size: type.sort === "Int" ? 8 : 24, spellcheck: false});
    if (!isEvent) field.onchange = () => this.put(k, field.value);
    if (type.sort !== "Int") return {field};
    const [min, max] = spanOf(this.page, this.session, column);
    const slider = element("input", {type: "range", min, max, value: 0});
    slider.oninput = () => { field.value = slider.value; if (!isEvent) this.put(k, slider.value); };
    return {field, slider};
  }

  // Sets an input by hand, from here on; what isn't of its type is refused, and the input stays as it was.
  put(k, text) {
    if (this.tried(() => this.hand.set(k, text))) this.takeOver();
    this.refresh();
  }

  takeOver() {
    if (!this.session.byHand) this.tell(`by hand from sample ${this.session.recording.length + 1} on`);
    this.session.byHand = true;
  }

  bindKeys() {
    const isText = target => target.tagName === "INPUT" && target.type === "text" || target.tagName === "SELECT";
    const bound = event => isText(event.target) || event.ctrlKey || event.altKey || event.metaKey ? [] : this.page.keys.filter(one => one.key === (event.key.length === 1 ? event.key.toLowerCase() : event.key));
    document.addEventListener("keydown", event => {
      for (const {column, value} of bound(event)) {
        event.preventDefault();
        const {type} = this.hand.columns[column];
        if (!event.repeat) this.put(column, value ?? (type.sort === "Bool" ? "true" : this.controls[column].field?.value ?? "unit"));
      }
    });
    document.addEventListener("keyup", event => {
      for (const {column, value} of bound(event)) {
        event.preventDefault();
        const {type} = this.hand.columns[column], own = type.sort === "Bool" || spelt(this.hand.values[column], type) === value;
        if (type.sort !== "Event" && own) this.put(column, spelt(resting(type), type));
      }
    });
  }

  // ---- clock

  bindClock() {
    byId("run").onclick = () => { if (this.isRunning) this.pause(); else this.run(); this.refresh(); };
    byId("once").onclick = () => { this.pause(); this.once(); this.refresh(); };
    byId("back").onclick = () => { this.pause(); this.session.back(Math.max(this.session.recording.length - 1, 0)); this.refresh(); };
    byId("reset").onclick = () => { this.pause(); this.session.reset(); this.hand = new Hand(this.session.main.input); this.tell(""); this.refresh(); };
    byId("hand").onclick = () => { this.takeOver(); this.refresh(); };
    byId("dt").onchange = event => { this.tried(() => { this.dt = stepOf(event.target.value.trim()); }); event.target.value = this.dt; };
    byId("rate").onchange = event => { this.tried(() => { this.rate = rateOf(event.target.value.trim()); }); event.target.value = this.rate; };
    byId("save").onclick = () => save("stream", this.session.stream());
    byId("saveOutput").onclick = () => save("output", this.session.outputs());
    byId("rate").value = this.rate;
    for (const button of document.querySelectorAll("button")) button.addEventListener("click", () => button.blur());
  }

  run() {
    Object.assign(this, {isRunning: true, due: 1, before: performance.now()});
    requestAnimationFrame(now => this.frame(now));
  }

  pause() { this.isRunning = false; }

  // Plays as many samples as are due, or as a frame has time for.
  frame(now) {
    if (!this.isRunning) return;
    this.due = Math.min(this.due + Math.max(now - this.before, 0) / 1000 * this.rate, Math.max(this.rate, 1));
    this.before = now;
    const until = performance.now() + FRAME;
    for (; this.isRunning && this.due >= 1 && performance.now() < until; this.due -= 1) this.once();
    this.refresh();
    requestAnimationFrame(next => this.frame(next));
  }

  once() {
    const {session} = this, next = session.replayed(), values = this.hand.values;
    if (!next && !session.byHand) {
      this.pause();
      this.takeOver();
      this.tell("the stream is at its end: from here on by hand");
      return;
    }
    this.hand.values = [...values];
    if (!this.tried(() => session.play(next ? next.dt : this.dt, next ? next.value : this.hand.take(), next?.line))) {
      this.hand.values = values;
      this.pause();
      return;
    }
    if (next) this.hand.follow(next.value);
    if (session.broken?.sample === session.recording.length) {
      this.pause();
      this.tell(`the guarantee ${session.broken.name} is false at sample ${session.broken.sample}`);
    }
  }

  // ---- outputs

  outputRow({of, name, type, at}) {
    const value = element("td", {className: "value"});
    return {at, type, value, isInside: of === "inside", row: element("tr", {title: type.shown}, element("th", {textContent: name}), value)};
  }

  // The rows of signals inside are folded where they are many.
  startRows() {
    const inside = this.rows.filter(one => one.isInside).map(one => one.row), folded = byId("inside");
    byId("values").append(...this.rows.filter(one => !one.isInside).map(one => one.row));
    byId("insideValues").append(...inside);
    folded.hidden = !inside.length;
    folded.open = inside.length <= MOST_ROWS;
    folded.querySelector("summary").textContent = `${inside.length} inside`;
    this.seen = new Seen(this.rows.map(one => one.row), () => this.showSample());
  }

  // The number of the sample that is shown: the one under the cursor, or the last; -1 where there is none.
  shownSample() { return Math.min(this.panels.cursor ?? Infinity, this.session.recording.length - 1); }

  refresh() {
    byId("run").textContent = this.isRunning ? "Pause" : "Run";
    byId("hand").hidden = this.session.byHand;
    this.panels.draw(this.isRunning ? performance.now() + DRAWING : Infinity);
    this.showInputs();
    this.showSample();
  }

  showSample() {
    const {session} = this, number = this.shownSample(), sample = session.recording[number];
    const rows = this.isRunning ? this.rows.filter(one => this.seen.has(one.row)) : this.rows;
    for (const {at, type, value} of rows) showText(value, sample ? told(at(number), type) : "");
    this.lamps.forEach((lamp, k) => { lamp.dataset.on = sample ? sample.lamps[k] : ""; });
    const of = session.byHand ? "by hand" : `of ${session.given.length.toLocaleString("en")} replayed`, count = session.recording.length.toLocaleString("en");
    showText(byId("at"), sample ? `sample ${(number + 1).toLocaleString("en")}, time ${sample.time}; ${count} played, ${of}` : `no sample yet, ${of}`);
    this.drawPicture(number);
  }

  showInputs() {
    this.controls.forEach(({box, field, slider, button}, k) => {
      const {type} = this.hand.columns[k], value = this.hand.values[k];
      if (box) box.checked = value;
      if (button) button.dataset.on = value !== null;
      else if (field && field !== document.activeElement) field.value = spelt(value, type);
      if (slider && !button) slider.value = Number(value);
    });
  }

  startPicture() {
    byId("pictured").hidden = !this.page.picture;
    this.draws = this.page.picture && typeof globalThis.picture === "function" ? globalThis.picture : null;
    if (this.page.picture && !this.draws) this.tell(`${this.page.picture} has no function picture(output, canvas, before), or isn't JavaScript`);
  }

  drawPicture(number) {
    if (!this.draws || number < 0) return;
    try {
      drawWith(this.draws, this.session, number, byId("canvas"));
    } catch (error) {
      this.tell(`${this.page.picture}: ${error.message}`);
      this.draws = null;
    }
  }
}

function rateOf(text) {
  const found = Number(text);
  if (!(found > 0 && found <= MOST_RATE)) throw new Refused(`samples a second are a number above 0, and at most ${MOST_RATE.toLocaleString("en")}`);
  return found;
}

function save(name, text) {
  const link = element("a", {download: name, href: URL.createObjectURL(new Blob([text], {type: "text/plain"}))});
  link.click();
  setTimeout(() => URL.revokeObjectURL(link.href), 1000);
}

async function start() {
  const page = JSON.parse(byId("page").textContent);
  const view = new View(page, new Session(page, await machinesOf(page)));
  globalThis.live = view;
  return view;
}

if (typeof document !== "undefined") globalThis.started = start().catch(error => { byId("told").textContent = String(error.message); });
