// Values as a page of a network has them: how streams spell them, and how they are shown.
"use strict";
class Refused extends Error {}

// A number is a BigInt, a pair an array of two, an event null or an array of one, a list an array.

const KINDS = {unit: "Unit", true: "Bool", false: "Bool", none: "Event", "(event": "Event", "(pair": "Pair", "(list": "List"};
const GREATEST = 2n ** 63n - 1n;
const LONGEST = 65536, MOST_SAMPLES = 1000000;

// Reads one value as a stream spells it; what is refused is told as `run` tells it.
class Reader {
  constructor(text) { this.text = text; this.at = 0; }

  refuse(why) { throw new Refused(`${why} at ${this.at}`); }

  word() {
    const find = /\(?[A-Za-z0-9-]*/y;
    find.lastIndex = this.at;
    return find.exec(this.text)[0];
  }

  want(letter) { if (this.text[this.at] !== letter) this.refuse("no value"); this.at += 1; }

  value(type) {
    const word = this.word(), isNumber = /^(0|-?[1-9][0-9]*)$/.test(word);
    const kind = isNumber ? "Int" : Object.hasOwn(KINDS, word) ? KINDS[word] : this.refuse("no value");
    if (kind !== type.sort) this.refuse("other type");
    const number = isNumber ? word.length > 20 ? GREATEST + 1n : BigInt(word) : 0n;
    if (number > GREATEST || number < -GREATEST - 1n) this.refuse("number range");
    this.at += word.length;
    return isNumber ? number : word[0] === "(" ? this.form(word, type) : {unit: "unit", true: true, false: false, none: null}[word];
  }

  form(word, type) {
    const parts = [];
    for (let k = 0; word === "(list" ? this.text[this.at] !== ")" : k < type.parts.length; k += 1) {
      this.want(" ");
      if (word === "(list" && k >= type.room) this.refuse("too many elements");
      parts.push(this.value(type.parts[word === "(list" ? 0 : k]));
    }
    this.want(")");
    return parts;
  }
}

function valueOf(text, type) {
  const reader = new Reader(text), found = reader.value(type);
  if (reader.at < text.length) reader.refuse("no value");
  return found;
}

// A value as a stream spells it; `each` spells its parts.
function spelt(value, type, each = spelt) {
  switch (type.sort) {
    case "Pair": return `(pair ${each(value[0], type.parts[0])} ${each(value[1], type.parts[1])})`;
    case "Event": return value === null ? "none" : `(event ${each(value[0], type.parts[0])})`;
    case "List": return `(list${value.map(one => " " + each(one, type.parts[0])).join("")})`;
    default: return String(value);
  }
}

// A value as its program spells it: of a type of Haskell as `spelt` of front/spell.py does; `isTight` is whether a constructor stands before it.
function shown(value, type, isTight = false) {
  const tight = text => (isTight ? `(${text})` : text), parts = () => fieldsOf(type).map(field => [reached(value, field.way), field.type]);
  switch (type.shape) {
    case "Bool": return value ? "True" : "False";
    case "Unit": return "()";
    case "Event": return value === null ? "NoEvent" : tight(`Event ${shown(value[0], type.parts[0], true)}`);
    case "Maybe": return value === null ? "Nothing" : tight(`Just ${shown(value[0], type.parts[0], true)}`);
    case "List": return `[${value.map(one => shown(one, type.parts[0])).join(", ")}]`;
    case "tuple": return `(${parts().map(([part, of]) => shown(part, of)).join(", ")})`;
    case "names": return type.values[Number(value)] ?? String(value);
    case "record": return shownMade(type.record, parts(), tight);
    case "sum": return shownSum(value, type, tight);
    case undefined: return spelt(value, type, (part, of) => shown(part, of));
    default: return value < 0n ? tight(String(value)) : String(value);
  }
}

// What a constructor makes of its parts, which come with their types.
function shownMade({name, fields}, parts, tight) {
  if (!parts.length) return name;
  if (!fields.length) return tight([name, ...parts.map(([part, of]) => shown(part, of, true))].join(" "));
  return tight(`${name} {${parts.map(([part, of], k) => `${fields[k]} = ${shown(part, of)}`).join(", ")}}`);
}

function shownSum(value, type, tight) {
  const {one, parts} = madeOf(value, type);
  return one ? shownMade(one, parts.map((part, k) => [part, one.parts[k]]), tight) : spelt(value, type);
}

const unnested = (value, count) => (count === 1 ? [value] : [value[0], ...unnested(value[1], count - 1)]);

// Which constructor made a value of a sum, and of which parts: its number stands before the parts of each one that has some.
function madeOf(value, type) {
  const sides = type.made.filter(one => one.parts.length), [number, ...found] = unnested(value, 1 + sides.length);
  const one = type.made[Number(number)];
  return {one, parts: one?.parts.length ? unnested(found[sides.indexOf(one)], one.parts.length) : []};
}

// The parts of nested pairs that have names: each with its name and its type, and how it is reached.
function fieldsOf(type) {
  const found = [];
  let way = [], left = type;
  type.names.forEach((name, number) => {
    const isLast = number === type.names.length - 1;
    found.push({name, type: isLast ? left : left.parts[0], way: isLast ? way : [...way, 0]});
    if (!isLast) [left, way] = [left.parts[1], [...way, 1]];
  });
  return found;
}

function columnsOf(type, way = [], name = "") {
  const fields = fieldsOf(type);
  return fields.length ? fields.flatMap(field => columnsOf(field.type, [...way, ...field.way], name ? `${name}.${field.name}` : field.name)) : [{type, way, name}];
}

const reached = (value, way) => way.reduce((part, half) => part?.[half], value);

// The value whose columns have these values, in order.
function built(type, values) {
  const fields = fieldsOf(type);
  if (!fields.length) return values.shift();
  return fields.map(field => built(field.type, values)).reduceRight((rest, part) => [part, rest]);
}

// A value as a picture gets it: an object with the names of a record's parts, an array of those of other pairs, null or the value of an
// event, the name of an enumeration, of a sum what Haskell spells, a number (beyond 2^53 a BigInt).
function plain(value, type) {
  const fields = fieldsOf(type);
  const parts = fields.map(field => [field.name, plain(reached(value, field.way), field.type)]);
  if (fields.length) return type.is_record ? Object.fromEntries(parts) : parts.map(part => part[1]);
  if (type.values || type.made) return shown(value, type);
  switch (type.sort) {
    case "Int": return Number.isSafeInteger(Number(value)) ? Number(value) : value;
    case "Pair": return value.map((part, k) => plain(part, type.parts[k]));
    case "Event": return value === null ? null : plain(value[0], type.parts[0]);
    case "List": return value.map(one => plain(one, type.parts[0]));
    default: return value;
  }
}

// What a new value of a column is, before anything is said of it.
function resting(type) {
  switch (type.sort) {
    case "Int": return 0n;
    case "Bool": return false;
    case "Unit": return "unit";
    case "Event": return null;
    case "List": return [];
    default: return type.parts.map(resting);
  }
}

// ---- panels

// The values of a part's members at a sample, undefined of those in which it doesn't run.
class Several extends Array {}

const told = (value, type) => (value === undefined ? "-" : value instanceof Several ? `[${value.map(one => told(one, type)).join(" ")}]` : shown(value, type));

// The columns of values of a type for panels, of which `at(k)` is that of sample k; a list of pairs has one for each of their parts.
function panelsOf(name, type, at, areMembers = false) {
  const each = areMembers ? type : type.sort === "List" ? type.parts[0] : null;
  if (!each || !fieldsOf(each).length) return [panelOf(name, areMembers ? null : type, each, at)];
  return columnsOf(each).map(part => panelOf(`${name}.${part.name}`, null, part.type, k => at(k) && Several.from(at(k), one => reached(one, part.way))));
}

// One column: of a type, where it is a list of the type of `each` of its elements; or of several values, each of that type.
function panelOf(name, type, each, at) {
  const isNumber = one => one?.sort === "Int" && !one.made, isDots = isNumber(each) && !each.values && !type?.made;
  const text = k => told(at(k), type ?? each);
  if (isDots) return {name, draw: "dots", text, level: k => at(k)?.map(one => (one === undefined ? one : Number(one)))};
  const level = k => (at(k) === undefined ? undefined : text(k));
  if (!type) return {name, draw: "marks", text, level: level};
  if (isNumber(type)) return {name, draw: "steps", words: type.values, text, level: k => (at(k) === undefined ? undefined : Number(at(k)))};
  if (type.sort === "Bool" || type.sort === "Unit") return {name, draw: "bands", text, level: k => (at(k) === undefined ? undefined : at(k) !== false)};
  const isEvent = type.sort === "Event" && !type.made, event = k => (at(k) ? told(at(k)[0], type.parts[0]) : at(k) === null ? "" : "-");
  return {name, draw: "marks", isEvent, text: isEvent ? event : text, level};
}
