// Plays pages of `yampa live` without a browser: `node playing.js PAGE..` prints a JSON object for each page, a line each;
// `node playing.js --replay PAGE` how many processor seconds that takes alone.
"use strict";
const fs = require("fs"), vm = require("vm");

// The model of a page: what its script has besides what is seen, and its data.
function modelOf(name) {
  const text = fs.readFileSync(name, "utf8"), scripts = [...text.matchAll(/<script([^>]*)>(.*?)<\/script>/gs)];
  const context = vm.createContext({WebAssembly, atob, TextDecoder});
  const script = [2, 3, 4].map(number => scripts[number][2]).join("\n");
  vm.runInContext(script + "\n;globalThis.model = {Session, Hand, Refused, machinesOf, stepOf, rateOf, spanOf, valueOf, spelt, plain, drawWith, shown, columnsOf, reached, told};", context);
  return {...context.model, page: JSON.parse(scripts[0][2]), context, picture: scripts[1][2]};
}

function refusal(model, work) {
  try {
    work();
    return "";
  } catch (error) {
    if (!(error instanceof model.Refused)) throw error;
    return error.message;
  }
}

// Replays the stream; takes over behind half of it and plays the rest by hand; goes back, and plays on.
async function played(name) {
  const model = modelOf(name), session = new model.Session(model.page, await model.machinesOf(model.page)), found = {};
  const began = Date.now();
  for (let next = session.replayed(); next; next = session.replayed()) session.play(next.dt, next.value, next.line);
  Object.assign(found, {seconds: (Date.now() - began) / 1000, stream: session.stream(), output: session.outputs(), fault: session.fault, broken: session.broken});
  found.assumed = session.recording.every(one => one.lamps.every((holds, k) => model.page.lamps[k].kind !== "assume" || holds));
  const told = model.columnsOf(session.main.output).filter(column => column.type.values || column.type.made);
  found.told = session.recording.map(one => told.map(({type, way}) => model.shown(model.reached(one.output, way), type)));
  found.inside = model.page.signals.map(signal => [signal.name, session.recording.map((_, k) => model.told(session.signal(k, signal), signal.type))]);
  session.reset();
  const half = Math.floor(session.given.length / 2);
  for (const one of session.given.slice(0, half)) session.play(one.dt, one.value, one.line);
  session.byHand = true;
  const hand = new model.Hand(session.main.input);
  for (const one of session.given.slice(half)) {
    hand.follow(one.value);
    hand.columns.forEach((column, k) => {
      const value = column.way.reduce((part, side) => part[side], one.value);
      if (column.type.sort === "Event" && value !== null) hand.set(k, model.spelt(value[0], column.type.parts[0]));
    });
    session.play(one.dt, hand.take());
  }
  Object.assign(found, {byHand: session.outputs(), handStream: session.stream()});
  session.back(half);
  for (const one of session.given.slice(half)) session.play(one.dt, one.value, one.line);
  found.again = session.outputs();
  found.drawn = model.picture ? drawn(model, session) : [];
  found.refused = session.main.input.sort === "Int" ? handled(model, session) : [];
  return found;
}

// What the page's picture draws of each sample, or null where its file has no such function.
function drawn(model, session) {
  try {
    vm.runInContext(model.picture, model.context);
  } catch {
    return null;
  }
  return session.recording.map((_, number) => {
    const boxes = [], texts = [];
    const pen = {fillRect: (...box) => boxes.push(box), fillText: text => texts.push(text)};
    model.drawWith(model.context.picture, session, number, {width: 130, height: 90, getContext: () => pen});
    return {boxes, texts};
  });
}

// What is refused of a network of numbers, and whether all is as it was.
function handled(model, session) {
  const hand = new model.Hand(session.main.input), before = session.outputs();
  const texts = ["", "05", "true", "9223372036854775808", "1 2"].map(text => refusal(model, () => hand.set(0, text)));
  const steps = ["0", "-1", "1.5", "", "9223372036854775808"].map(text => refusal(model, () => model.stepOf(text)));
  const rates = ["0", "x", "1e9"].map(text => refusal(model, () => model.rateOf(text)));
  return [...texts, ...steps, ...rates, String(hand.take() === 0n && session.outputs() === before)];
}

// How many processor seconds it takes to replay a page's stream, and how many samples that are.
async function replayed(name) {
  const model = modelOf(name), session = new model.Session(model.page, await model.machinesOf(model.page)), began = process.cpuUsage();
  for (let next = session.replayed(); next; next = session.replayed()) session.play(next.dt, next.value, next.line);
  const {user, system} = process.cpuUsage(began);
  return {seconds: (user + system) / 1e6, count: session.recording.length};
}

async function main() {
  if (process.argv[2] === "--replay") console.log(JSON.stringify(await replayed(process.argv[3])));
  else for (const name of process.argv.slice(2)) console.log(JSON.stringify(await played(name)));
}

main();
