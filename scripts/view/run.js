// What is known of the run: the steps, counted from 1 (place 0 is the start), the messages, and what each node is after each step.

const data = JSON.parse(document.getElementById("data").textContent);
const nodes = Array.from({ length: data.nodes }, (_, at) => at + 1);
const last = data.steps.length;
const MAIN = new Set(["role", "known", "released", "keep", "stop", "read"]);

// A step: its schedule line, its node (0: none), the message that was handed over (0: none), and its marks: kind, label, text.
const steps = [null, ...data.steps.map(([line, node, message, ...marks]) => ({ line, node, message, marks: marks.map((at) => data.marks[at]) }))];
const messages = [null, ...data.messages.map(([kind, sender, receiver, sent, detail, ...handed], at) => ({ number: at + 1, kind: data.kinds[kind], sender, receiver, sent, detail: data.details[detail], handed }))];
const events = data.events.map(([place, node, lane, index, text]) => ({ place, node, lane, index, text: data.texts[text], delta: 0, causes: [] }));
data.trace.forEach((delta, at) => delta.forEach(([event, ...causes]) => Object.assign(events[event], { delta: at + 1, causes })));

// The places of each schedule line's first and last step, and of each step the first report line; a line's `sent` texts come last.
const firstPlace = [0], lastPlace = [0], sendsOf = steps.map(() => []), eventAt = new Map(events.map((event, at) => [event.place, at]));
messages.slice(1).forEach((message) => sendsOf[message.sent].push(message));
const firstText = [0], firstSent = [0];
for (let place = 1, text = 0; place <= last; place++) {
  const { line, message, marks } = steps[place];
  firstPlace[line] ??= place;
  lastPlace[line] = place;
  firstText[place] = text;
  text += marks.length + (message ? 1 : 0);
  if (place === last || steps[place + 1].line !== line) {
    firstSent[line] = text;
    for (let at = firstPlace[line]; at <= place; at++) text += sendsOf[at].length;
  }
}

const isDown = (place) => steps[place].message > 0 && steps[place].marks.some(([, , text]) => text.endsWith(" is down"));
const wordsOf = (place) => (place ? data.scenario[data.schedule[steps[place].line - 1] - 1].trim() : "start");
const requestOf = (number) => data.scenario[data.requests[number - 1] - 1].trim();
const nameOf = (message) => `${message.number} ${message.kind}`;
const wayOf = (message) => `${nameOf(message)} ${message.sender} to ${message.receiver}`;
const isTurn = (place) => !steps[place].message && !sendsOf[place].length && steps[place].marks.every(([kind]) => kind === "event" || kind === "idle");
const isMain = (place) => steps[place].marks.some(([kind]) => MAIN.has(kind));
const placeName = (place) => {
  if (!place) return "0";
  const { line } = steps[place];
  return firstPlace[line] === lastPlace[line] ? `${line}` : `${line}.${place - firstPlace[line] + 1}`;
};

// The state after a step: for each name the number of its value. One is kept for each so many steps, once it was come to.
const KEPT = 512;
const numberOfName = new Map(data.names.map((name, at) => [name, at]));
const kept = [];
let stateNow = null, stateAt = -1;

function apply(state, place) {
  const some = data.changes[place];
  for (let at = 0; at < some.length; at += 2) state[some[at]] = some[at + 1];
}

function moveTo(place) {
  if (stateAt > place || stateAt < 0 || place - stateAt > KEPT) {
    const near = Math.min(Math.floor(place / KEPT), kept.length - 1);
    if (near < 0) {
      stateNow = new Int32Array(data.names.length);
      apply(stateNow, 0);
      stateAt = 0;
      kept[0] = stateNow.slice();
    } else if (stateAt > place || stateAt < near * KEPT) {
      stateNow = kept[near].slice();
      stateAt = near * KEPT;
    }
  }
  while (stateAt < place) {
    apply(stateNow, ++stateAt);
    if (stateAt % KEPT === 0 && kept.length === stateAt / KEPT) kept.push(stateNow.slice());
  }
}

// The state after a step, by names, and which of them this step changed.
function lookAt(place) {
  moveTo(place);
  const state = stateNow, changed = new Set();
  for (let at = 0; place && at < data.changes[place].length; at += 2) changed.add(data.changes[place][at]);
  const value = (name) => (numberOfName.has(name) ? data.values[state[numberOfName.get(name)]] : null);
  return { place, value, of: (node, name) => value(`${node} ${name}`), isNew: (name) => changed.has(numberOfName.get(name)) };
}

// The places at which each node's role changes, with the roles.
const rolesOf = [null, ...nodes.map(() => [])];
data.changes.forEach((some, place) => {
  for (let at = 0; at < some.length; at += 2) {
    const name = data.names[some[at]];
    if (name.endsWith(" role")) rolesOf[parseInt(name, 10)].push([place, data.values[some[at + 1]]]);
  }
});

// The node that leads with the greatest ballot, or 0.
function leaderOf(look) {
  return nodes.filter((node) => look.of(node, "role") === "active").reduce((best, node) => (best && look.of(best, "ballot") > look.of(node, "ballot") ? best : node), 0);
}

// The messages that were sent up to a step, and are not handed over by then.
function inFlight(place) {
  return messages.filter((message) => message && message.sent <= place && !(message.handed[0] <= place));
}

function textOf(place) {
  if (!place) return "start";
  const { line, message, marks } = steps[place];
  const parts = [`${line} ${wordsOf(place)}`, ...marks.map(([, label, text]) => `${text} ${label}`), ...sendsOf[place].map((it) => `sent ${wayOf(it)}`)];
  if (message) parts.push(`message ${wayOf(messages[message])}`);
  return parts.join("\n").toLowerCase();
}

// An element with attributes (of which `onclick` and the like are functions) and children.
function make(tag, attributes = {}, ...children) {
  const it = document.createElement(tag);
  for (const [name, value] of Object.entries(attributes)) {
    if (name.startsWith("on")) it.addEventListener(name.slice(2), value);
    else if (value === true) it.setAttribute(name, "");
    else if (value !== false && value !== null && value !== undefined) it.setAttribute(name, value);
  }
  it.append(...children.flat(3).filter((child) => child !== null && child !== undefined && child !== false));
  return it;
}

const byId = (id) => document.getElementById(id);
const fill = (id, ...children) => byId(id).replaceChildren(...make("div", {}, ...children).childNodes);
const counted = (count, word, words = `${word}s`) => `${count.toLocaleString("en")} ${count === 1 ? word : words}`;
