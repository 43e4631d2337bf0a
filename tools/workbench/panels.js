// Panels of columns over time, one below the other: a cursor reads all of them at one sample, and a stretch of time is zoomed to.
"use strict";

const element = (tag, given = {}, ...inside) => {
  const made = Object.assign(document.createElement(tag), given);
  made.append(...inside);
  return made;
};

const PANEL_HIGH = 54, PANEL_ROOF = 17, PANEL_FLOOR = PANEL_HIGH - 4, PLACES = 16, DOT = 8, DOTS = [];
const COLOURS = ["#1f77b4", "#d55e00", "#009e73", "#cc79a7", "#8c6d31", "#56b4e9", "#e69f00", "#7f7f7f"];
// The dots of a list's places, by their corners: circle, square, triangle up, triangle down, diamond, cross, plus, bar.
const SHAPES = [null, [[-3, -3], [3, -3], [3, 3], [-3, 3]], [[0, -4], [4, 3], [-4, 3]], [[0, 4], [4, -3], [-4, -3]], [[0, -4], [4, 0], [0, 4], [-4, 0]],
  [[-3, -3], [0, -1], [3, -3], [1, 0], [3, 3], [0, 1], [-3, 3], [-1, 0]], [[-1, -4], [1, -4], [1, -1], [4, -1], [4, 1], [1, 1], [1, 4], [-1, 4], [-1, 1], [-4, 1], [-4, -1], [-1, -1]], [[-1, -4], [1, -4], [1, 4], [-1, 4]]];

// Those of some elements that are on the screen; `changed` is called where others are.
class Seen {
  constructor(elements, changed) {
    this.found = new Set();
    const observer = new IntersectionObserver(entries => {
      for (const {target, isIntersecting} of entries) this.found[isIntersecting ? "add" : "delete"](target);
      changed();
    });
    for (const one of elements) observer.observe(one);
  }

  has(element) { return this.found.has(element); }
}

// A column has a name, and what it is drawn as: "steps", "bands", "marks" or "dots". `level(k)` of sample k is a number, a truth value, or
// numbers; undefined where there is none. `text(k)` is what is told of it; of marks where there is none it is "". `words` name numbers.
class Panels {
  // Of so many samples as `count()` tells, with their times; as many as `span` are shown at first, the last ones.
  constructor(root, columns, {count, time, span = Infinity, cursorAt = () => {}}) {
    Object.assign(this, {root, columns, count, time, span, first: span, cursorAt, next: 0, to: null, cursor: null, down: null});
    const button = (text, title, work) => element("button", {type: "button", textContent: text, title, onclick: () => { work(); this.draw(); }});
    const move = part => () => this.show(this.end() + Math.round(part * this.shown()), this.shown());
    this.tools = element("p", {className: "zoom"}, button("\u25C0", "earlier", move(-0.5)), button("\u25B6", "later", move(0.5)), button("+", "zoom in", () => this.zoom(0.5)),
      button("\u2212", "zoom out", () => this.zoom(2)), button("all", "as at first", () => this.all()), element("span", {textContent: " drag to zoom in, double click for all"}));
    this.panels = columns.map(column => {
      const canvas = element("canvas", {className: "panel"}), at = element("span", {className: "at"});
      return {column, canvas, at, row: element("div", {className: "row"}, element("span", {className: "label", textContent: column.name}), at, canvas)};
    });
    this.axis = element("canvas", {className: "axis"});
    this.line = element("div", {className: "cursor", hidden: true});
    this.stack = element("div", {className: "stack"}, ...this.panels.map(one => one.row), this.axis, this.line);
    root.append(this.tools, this.stack);
    this.bind();
  }

  // ---- which samples are shown

  end() { return Math.min(this.to ?? this.count(), this.count()); }

  shown() { return Math.min(this.span, Math.max(this.count(), 2)); }

  // Shows so many samples up to that one; at the end of all of them it follows what comes.
  show(to, span) {
    this.span = span >= this.count() && this.first === Infinity ? Infinity : Math.max(Math.round(span), 2);
    this.to = Math.max(to, Math.min(this.span, this.count()));
    if (this.to >= this.count()) this.to = null;
  }

  // Shows fewer or more samples, and the cursor's where it was; without a cursor the last one.
  zoom(factor) {
    const {from, to} = this.window(), span = Math.max(this.shown() * factor, 2), at = this.cursor ?? to;
    this.show(Math.round(at + (to - at) * span / Math.max(to - from, 1)), span);
  }

  all() { Object.assign(this, {span: this.first, to: null}); }

  // From which sample to which the panels go, and at which times.
  window() {
    const to = this.end(), from = Math.max(to - this.span, 0);
    if (from >= to) return {from, to, start: 0, width: 1};
    const start = this.time(from), last = this.time(to - 1);
    const room = to < this.count() ? this.time(to) - last : to - from > 1 ? (last - start) / (to - from - 1) : 1;
    return {from, to, start, width: last - start + room};
  }

  // The sample that runs where so many dots are to the left.
  sampleAt(left) {
    const {from, to, start, width} = this.window(), wanted = start + left / Math.max(this.stack.clientWidth, 1) * width;
    let low = from, high = to - 1;
    while (low < high) {
      const middle = Math.ceil((low + high) / 2);
      if (this.time(middle) <= wanted) low = middle; else high = middle - 1;
    }
    return to > from ? low : null;
  }

  // ---- pointer and keys

  bind() {
    const left = event => event.clientX - this.stack.getBoundingClientRect().left;
    this.stack.onpointermove = event => this.point(this.sampleAt(left(event)), left(event));
    this.stack.onpointerleave = () => { this.down = null; this.point(null); };
    this.stack.onpointerdown = event => { this.down = left(event); };
    this.stack.onpointerup = event => this.release(left(event));
    this.stack.ondblclick = () => { this.all(); this.draw(); };
    this.seen = new Seen(this.panels.map(one => one.row), () => this.draw());
    new ResizeObserver(() => this.draw()).observe(this.stack);
  }

  // Reads all panels at a sample, or at none; between where the pointer went down and where it is the time is marked.
  point(sample, left) {
    this.cursor = sample;
    this.cursorAt(sample);
    this.showCursor(left);
  }

  release(left) {
    if (this.down !== null && Math.abs(left - this.down) > 5 && this.count()) {
      const [from, to] = [Math.min(left, this.down), Math.max(left, this.down)].map(one => this.sampleAt(one));
      this.show(to + 1, Math.max(to + 1 - from, 2));
      this.draw();
    }
    this.down = null;
    this.showCursor(left);
  }

  // Shows where the cursor is, and what these panels have there.
  showCursor(left, panels = this.panels) {
    const {from, to, start, width} = this.window(), wide = this.stack.clientWidth;
    if (this.cursor !== null && this.cursor >= this.count()) this.cursor = null;
    const isSeen = this.cursor !== null && this.cursor >= from && this.cursor < to, at = isSeen ? (this.time(this.cursor) - start) / width * wide : 0;
    const isDragged = isSeen && this.down !== null && left !== undefined;
    this.line.hidden = !isSeen;
    Object.assign(this.line.style, isDragged ? {left: `${Math.min(left, this.down)}px`, width: `${Math.abs(left - this.down)}px`} : {left: `${at}px`, width: "1px"});
    for (const {at: told, column} of panels) {
      told.textContent = isSeen ? column.text(this.cursor) : "";
      Object.assign(told.style, at < wide / 2 ? {left: `${at + 4}px`, right: "auto"} : {left: "auto", right: `${wide - at + 4}px`});
    }
  }

  // ---- drawing

  // Draws the panels that are seen, as many of them as there is time for: the next call begins with the others.
  draw(until = Infinity) {
    const style = getComputedStyle(document.body), wide = this.stack.clientWidth, view = {...this.window(), wide};
    if (!wide) return;
    view.x = k => (k < view.to ? (this.time(k) - view.start) / view.width * wide : wide);
    const colours = {ink: style.color, paper: style.backgroundColor, line: style.getPropertyValue("--line"), mark: style.getPropertyValue("--mark")};
    const seen = this.panels.filter(one => this.seen.has(one.row)), first = this.next % seen.length || 0;
    for (const {canvas, column} of [...seen.slice(first), ...seen.slice(0, first)]) {
      DRAWN[column.draw](penOf(canvas, colours), withLevels(column, view), view, colours);
      this.next += 1;
      if (performance.now() > until) break;
    }
    this.drawAxis(view, colours);
    this.showCursor(undefined, seen);
  }

  drawAxis({start, width, wide}, colours) {
    const pen = penOf(this.axis, colours), rough = width / Math.max(wide / 90, 1), ten = 10 ** Math.floor(Math.log10(rough));
    const apart = Math.max([1, 2, 5, 10].map(one => one * ten).find(one => one >= rough), 1);
    Object.assign(pen, {fillStyle: colours.ink, textAlign: "left"});
    for (let time = Math.ceil(start / apart) * apart; time < start + width; time += apart) {
      const left = (time - start) / width * wide, text = time.toLocaleString("en");
      pen.fillRect(left, 0, 1, 4);
      if (left + pen.measureText(text).width < wide) pen.fillText(text, left, 15);
    }
  }
}

// A pen on an empty canvas of the size that it has in the page.
function penOf(canvas, colours) {
  const scale = devicePixelRatio || 1, wide = Math.round(canvas.clientWidth * scale), high = Math.round(canvas.clientHeight * scale);
  const pen = canvas.getContext("2d");
  if (canvas.width !== wide || canvas.height !== high) Object.assign(canvas, {width: wide, height: high});
  else pen.reset();
  pen.scale(scale, scale);
  return Object.assign(pen, {font: "11px sans-serif", strokeStyle: colours.mark, fillStyle: colours.mark, lineWidth: 1.5});
}

// A column whose levels in a window are at hand.
function withLevels(column, {from, to}) {
  const levels = Array.from({length: to - from}, (_, k) => column.level(from + k));
  return {...column, level: k => levels[k - from]};
}

// The least and the greatest of the numbers that are shown, and how high each stands: of words the first at the top.
function scaleOf(column, {from, to}) {
  let least = Infinity, most = -Infinity;
  const take = number => {
    if (number < least) least = number;
    if (number > most) most = number;
  };
  for (let k = from; k < to; k += 1) {
    const level = column.level(k);
    if (Array.isArray(level)) level.forEach(take); else if (level !== undefined) take(level);
  }
  if (column.words) [least, most] = [0, column.words.length - 1];
  const part = number => (most > least ? (number - least) / (most - least) : 0.5);
  return {least, most, y: number => PANEL_FLOOR - (column.words ? 1 - part(number) : part(number)) * (PANEL_FLOOR - PANEL_ROOF)};
}

function tellScale(pen, column, {least, most, y}, wide, {ink, paper}) {
  Object.assign(pen, {fillStyle: ink, textAlign: "right"});
  if (column.words && column.words.length < 5) {
    pen.font = "9px sans-serif";
    column.words.forEach((word, number) => {
      const room = pen.measureText(word).width + 4;
      Object.assign(pen, {fillStyle: paper}).fillRect(wide - room, y(number) - 5, room, 10);
      Object.assign(pen, {fillStyle: ink}).fillText(word, wide - 2, y(number) + 3);
    });
  } else if (most >= least) {
    pen.fillText(column.words ? `${column.words.length} names` : most === least ? String(most) : `${least} .. ${most}`, wide - 2, 11);
  }
}

// Numbers as steps, with gaps where there are none. Of the samples in one column of dots the first, the least, the greatest and the last.
function drawSteps(pen, column, view, colours) {
  const scale = scaleOf(column, view), {y} = scale;
  let isDown = false;
  pen.beginPath();
  for (let k = view.from; k < view.to;) {
    const first = column.level(k), left = view.x(k);
    let low = first, high = first, last = first;
    for (k += 1; k < view.to && first !== undefined && view.x(k) - left < 0.5 && column.level(k) !== undefined; k += 1) {
      last = column.level(k);
      [low, high] = [Math.min(low, last), Math.max(high, last)];
    }
    if (first !== undefined) {
      if (isDown) pen.lineTo(left, y(first)); else pen.moveTo(left, y(first));
      if (low < high) for (const one of [low, high, last]) pen.lineTo(left, y(one));
      pen.lineTo(view.x(k), y(last));
    }
    isDown = first !== undefined;
  }
  pen.stroke();
  tellScale(pen, column, scale, view.wide, colours);
}

// Truth as bands; where the part doesn't run there is no line below.
function drawBands(pen, column, view, {line}) {
  const runs = (holds, roof, floor) => {
    let start = null, end = 0;
    for (let k = view.from; k < view.to; k += 1) {
      if (!holds(column.level(k))) continue;
      const left = view.x(k);
      if (start !== null && left - end >= 0.5) {
        pen.fillRect(start, roof, Math.max(end - start, 1), floor - roof);
        start = null;
      }
      start = start ?? left;
      end = view.x(k + 1);
    }
    if (start !== null) pen.fillRect(start, roof, Math.max(end - start, 1), floor - roof);
  };
  runs(level => level === true, PANEL_ROOF, PANEL_FLOOR - 1);
  pen.fillStyle = line;
  runs(level => level !== undefined, PANEL_FLOOR, PANEL_FLOOR + 2);
}

// Marks where there is something, or where it is another one, with what is told as far as that has room.
function drawMarks(pen, column, view, {ink, mark}) {
  let before = "", free = 0, drawn = -1;
  for (let k = view.from; k < view.to; k += 1) {
    const text = column.level(k) === undefined ? "" : column.text(k), isNew = text !== "" && (column.isEvent || text !== before);
    before = text;
    if (!isNew) continue;
    const left = view.x(k);
    pen.fillStyle = mark;
    if (left - drawn >= 0.5) pen.fillRect(drawn = left, PANEL_FLOOR - 9, 3, 9);
    if (left < free) continue;
    const brief = text.length > 40 ? `${text.slice(0, 38)}..` : text;
    pen.fillStyle = ink;
    pen.fillText(brief, left, PANEL_FLOOR - 12);
    free = left + pen.measureText(brief).width + 8;
  }
}

// The first elements of lists as dots that nothing joins, each place with a shape and a colour of its own.
function drawDots(pen, column, view, colours) {
  const scale = scaleOf(column, view), drawn = new Set();
  for (let k = view.from; k < view.to; k += 1) {
    const left = Math.round(view.x(k)), numbers = column.level(k) ?? [], count = Math.min(numbers.length, PLACES);
    for (let place = 0; place < count; place += 1) {
      if (numbers[place] === undefined) continue;
      const high = Math.round(scale.y(numbers[place])), dot = (left * PANEL_HIGH + high) * PLACES + place;
      if (!drawn.has(dot)) pen.drawImage(dotOf(place), left - 1, high - DOT / 2, DOT, DOT);
      drawn.add(dot);
    }
  }
  tellScale(pen, column, scale, view.wide, colours);
}

// The picture of a place's dot, with as many dots of the screen as it is shown with.
function dotOf(place) {
  const wide = Math.round(DOT * (devicePixelRatio || 1));
  if (DOTS[place]?.width !== wide) DOTS[place] = drawnDot(SHAPES[place % SHAPES.length], COLOURS[place % COLOURS.length], wide);
  return DOTS[place];
}

function drawnDot(corners, colour, wide) {
  const canvas = element("canvas", {width: wide, height: wide}), pen = canvas.getContext("2d");
  pen.fillStyle = colour;
  pen.setTransform(wide / DOT, 0, 0, wide / DOT, wide / 2, wide / 2);
  pen.beginPath();
  if (corners) for (const [right, down] of corners) pen.lineTo(right * 0.8, down * 0.8);
  else pen.arc(0, 0, 2.5, 0, 7);
  pen.fill();
  return canvas;
}

const DRAWN = {steps: drawSteps, bands: drawBands, marks: drawMarks, dots: drawDots};

// ---- the columns of a page, as texts where they change

// A column of a page: its texts, "-" where there is none, with the samples from which on they hold.
function columnOf({name, draw, words, isEvent, texts, at}, count) {
  const places = Uint32Array.from({length: count});
  let place = -1;
  for (let k = 0; k < count; k += 1) {
    if (at === null || at[place + 1] === k) place += 1;
    places[k] = place;
  }
  const levels = texts.map(text => levelOf(draw, words, text));
  return {name, draw, words, isEvent, text: k => texts[places[k]], level: k => levels[places[k]]};
}

function levelOf(draw, words, text) {
  if (text === "-") return undefined;
  if (words) return words.indexOf(text);
  return {steps: Number, bands: one => one.toLowerCase() !== "false", dots: one => (one.match(/-?\d+/g) ?? []).map(Number), marks: one => one}[draw](text);
}

// Fills the page's element of this name.
function startPanels(name) {
  const data = JSON.parse(document.getElementById(`${name}-data`).textContent), {times} = data;
  const panels = new Panels(document.getElementById(name), data.columns.map(column => columnOf(column, times.length)), {count: () => times.length, time: k => times[k]});
  panels.draw();
  return panels;
}
