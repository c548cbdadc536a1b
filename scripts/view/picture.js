// The space-time picture: a row for each step that is shown, a bar for each node, and the ways of messages. What is in sight is drawn.
// Texts stand at both sides of the bars, the schedule's at the left and what happened at the right, so that no way goes through one.

const ROW = 22, BAR = 5, ABOVE = 6, BESIDE = 26, FAR = 84, NEAR = 24, MOST_WAYS = 600, MOST_PASSING = 12;
const SIGNS = {
  role: ["M-5 0a5 5 0 1 0 10 0a5 5 0 1 0-10 0z", "--text"], vote: ["M-4 0a4 4 0 1 0 8 0a4 4 0 1 0-8 0z", "--offer"], known: ["M-5-5h10v10h-10z", "--chosen"],
  released: ["M0-6l6 6l-6 6l-6-6z", "--reply"], keep: ["M-5-4h10v8h-10z", "--ask"], stop: ["M-5-5h10v10h-10z", "--stop"], read: ["M0-6l6 6l-6 6l-6-6z", "--vote"],
};
const PLAIN = ["M-2.5 0a2.5 2.5 0 1 0 5 0a2.5 2.5 0 1 0-5 0z", "--text"];

let shown = [], rowOf = new Int32Array(last + 1), widths = { gutter: 0, full: 0, x: [], texts: 0, heads: "" }, cursor = 0, chosen = 0, found = new Uint8Array(last + 1);

// For each way of a message: the message, the places where it begins and ends, and whether it came before. A lost one ends where it begins.
const ways = messages.slice(1).flatMap((message) => (message.handed.length ? message.handed.map((end, at) => ({ message, start: message.sent, end, again: at > 0, lost: false })) : [{ message, start: message.sent, end: message.sent, again: false, lost: true }]));
const wayStarts = Int32Array.from(ways, (way) => way.start), wayEnds = Int32Array.from(ways, (way) => way.end);

function showSteps(which) {
  const fits = { all: () => true, turns: (place) => !isTurn(place), main: isMain, found: (place) => found[place] === 1 }[which];
  shown = [0];
  for (let place = 1; place <= last; place++) {
    if (fits(place)) shown.push(place);
    rowOf[place] = shown.length - 1;
  }
  layOut();
}

const shownAfter = (place) => shown[rowOf[place] + 1] ?? last;
const shownBefore = (place) => (shown[rowOf[place]] < place ? shown[rowOf[place]] : shown[Math.max(0, rowOf[place] - 1)]);

function layOut() {
  const full = byId("picture").clientWidth, gutter = Math.min(190, Math.max(130, full * 0.22)), start = gutter + BESIDE;
  const way = Math.min(FAR, Math.max(NEAR, ((full - gutter) * 0.36) / Math.max(1, data.nodes - 1)));
  widths = { gutter, full, x: [0, ...nodes.map((node) => start + way * (node - 1))], texts: start + way * (data.nodes - 1) + BESIDE + 8, heads: way < 66 ? "" : "node " };
  byId("canvas").style.height = `${shown.length * ROW + ROW}px`;
  drawHeads();
  drawPicture();
}

function drawHeads() {
  const look = lookAt(cursor);
  byId("heads").replaceChildren(make("span", { class: "places" }, "line"), ...nodes.map((node) => {
    const role = look.of(node, "role"), name = `node ${node}: ${role}${role === "active" ? ", leads" : ""}`;
    return make("button", {
      class: `role ${role}`, style: `left:${widths.x[node]}px`, "aria-pressed": `${chosen === node}`, "aria-label": `${name}. Choose it, and go to its next step`,
      title: `${name}: choose it, and go to its next step`, onclick: (click) => choose(node, click.shiftKey),
    }, `${widths.heads}${node}`);
  }), make("span", { class: "places", style: `left:${widths.texts}px` }, "node: what happened"));
}

function drawPicture() {
  const picture = byId("picture"), top = Math.max(0, Math.floor(picture.scrollTop / ROW) - 2);
  const bottom = Math.min(shown.length - 1, top + Math.ceil(picture.clientHeight / ROW) + 4), high = (bottom - top + 1) * ROW;
  const sight = byId("window");
  sight.style.transform = `translateY(${top * ROW}px)`;
  sight.style.height = `${high}px`;
  const rows = [], texts = [];
  for (let row = top; row <= bottom; row++) {
    rows.push(rowOfStep(shown[row], row, (row - top) * ROW));
    const told = toldAt(shown[row], (row - top) * ROW);
    if (told) texts.push(told);
  }
  byId("rows").replaceChildren(...rows);
  byId("texts").replaceChildren(...texts);
  byId("ways").innerHTML = barsIn(top, bottom) + waysIn(top, bottom) + signsIn(top, bottom) + `<path class="cursor" d="M0 ${(rowOf[cursor] - top + 1) * ROW - 0.5}H${widths.full}"/>`;
  byId("rows").setAttribute("aria-activedescendant", `step${shown[rowOf[cursor]]}`);
}

function rowOfStep(place, row, y) {
  const style = ["row", place && steps[place].line % 2 ? "odd" : "", row === rowOf[cursor] ? "here" : "", found[place] ? "found" : "", place > cursor ? "after" : ""].join(" ");
  const isFirst = !place || place === firstPlace[steps[place].line];
  return make("div", { class: style, id: `step${place}`, role: "option", "aria-setsize": shown.length, "aria-posinset": row + 1, "aria-selected": `${row === rowOf[cursor]}`, "aria-label": toldOf(place), style: `top:${y}px`, onclick: () => go(place), title: toldOf(place) },
    make("span", { class: "number" }, isFirst ? (place ? `${steps[place].line}` : "0") : ""), make("span", { class: "words quiet", style: `width:${widths.gutter - 8 - 46}px` }, `${isFirst ? wordsOf(place) : ""}`));
}

// What happened in a step, in words.
function toldOf(place) {
  if (!place) return "the start";
  const { line, node, message, marks } = steps[place], sends = sendsOf[place];
  return [`line ${line} ${wordsOf(place)}`, node ? `node ${node}` : "", message ? `gets message ${wayOf(messages[message])}` : "", ...marks.map(([, label]) => label), sends.length ? `sends ${sends.map(nameOf).join(", ")}` : ""].filter(Boolean).join("; ");
}

function toldAt(place, y) {
  if (!place) return null;
  const { node, message, marks } = steps[place], parts = [];
  const lane = wordsOf(place).split(/\s+/);
  if (message) parts.push(make("span", { class: `kind ${messages[message].kind}` }, `${messages[message].kind} of ${messages[message].sender}`));
  for (const [kind, label] of marks) {
    const text = lane[0] === "lane" && (kind === "event" || kind === "idle") ? `lane ${lane[2]}: ${label}` : label;
    parts.push(make(MAIN.has(kind) ? "b" : "span", { class: kind === "quiet" || kind === "idle" ? "quiet" : "" }, text));
  }
  const lost = sendsOf[place].filter((it) => !it.handed.length), lostKinds = [...new Set(lost.map((it) => it.kind))];
  if (lost.length) parts.push(make("span", { class: "quiet" }, `lost: ${lostKinds.map((kind) => `${kind} to ${lost.filter((it) => it.kind === kind).map((it) => it.receiver).join(" ")}`).join(", ")}`));
  const joined = parts.flatMap((part, index) => (index ? ["; ", part] : [part]));
  return make("div", { class: `told${dim(place)}`, style: `top:${y}px;left:${widths.texts}px;max-width:${widths.full - widths.texts - 6}px` }, make("span", { class: "quiet" }, node ? `${node}: ` : ""), ...joined);
}

const dim = (place) => (place > cursor ? " later" : "");

function barsIn(top, bottom) {
  const parts = [], here = rowOf[cursor] + 1;
  for (const node of nodes) {
    rolesOf[node].forEach(([place, role], at) => {
      const next = rolesOf[node][at + 1];
      const start = Math.max(place ? rowOf[place] + 0.5 : 0.5, top), end = Math.min(next ? rowOf[next[0]] + 0.5 : shown.length, bottom + 1);
      if (end <= start) return;
      for (const [from, to, late] of [[start, Math.min(end, here), ""], [Math.max(start, here), end, " later"]]) {
        if (to > from) parts.push(`<rect class="bar ${role}${late}" x="${widths.x[node] - BAR}" y="${(from - top) * ROW}" width="${2 * BAR}" height="${(to - from) * ROW}" fill="var(--${role})"/>`);
      }
    });
  }
  return parts.join("");
}

// The ways with an end in sight, and some of those that pass by: there may be thousands of messages that are handed over much later.
function waysIn(top, bottom) {
  const near = [], passing = [], isIn = (row) => row >= top && row <= bottom;
  for (let at = 0; at < ways.length; at++) {
    const from = rowOf[wayStarts[at]], to = rowOf[wayEnds[at]];
    if (from <= bottom && to >= top) (isIn(from) || isIn(to) ? near : passing).push([at, from, to]);
  }
  passing.sort(([one], [other]) => ways[one].again - ways[other].again);
  const drawn = [...passing.slice(0, MOST_PASSING), ...near.slice(0, MOST_WAYS)], left = near.length + passing.length - drawn.length;
  byId("left").textContent = left ? `${counted(left, "way")} of messages that pass by here not drawn` : "";
  const limits = [-2 * ROW, (bottom - top + 3) * ROW], now = (rowOf[cursor] - top + 1) * ROW;
  return drawn.map(([at, from, to]) => (ways[at].lost ? lostWay(ways[at], (from - top + 0.5) * ROW) : way(ways[at], (from - top + 0.5) * ROW, (to - top + 0.5) * ROW, now, limits))).join("");
}

function cross(x, y, kind, late) {
  return `<path class="cross ${kind}${late}" d="M${x - 4} ${y - 4}l8 8m0-8l-8 8"/>`;
}

function way({ message, start, end, again }, y, toY, now, [least, most]) {
  const { kind, sender, receiver } = message, side = receiver > sender ? 1 : -1, isLost = isDown(end), isUnder = start <= cursor && cursor < end && !again;
  const x = widths.x[sender] + side * BAR, toX = widths.x[receiver] - side * (BAR + (isLost ? 6 : 1)), late = dim(start);
  const long = Math.hypot(toX - x, toY - y) || 1, dx = (toX - x) / long, dy = (toY - y) / long;
  const tip = isLost ? cross(toX, toY, kind, late) : `<path class="tip ${kind}${late}" d="M${toX} ${toY}L${toX - 8 * dx + 3.5 * dy} ${toY - 8 * dy - 3.5 * dx}L${toX - 8 * dx - 3.5 * dy} ${toY - 8 * dy + 3.5 * dx}z"/>`;
  const part = (now - y) / (toY - y || 1), dot = isUnder && part >= 0 && part <= 1 ? `<circle class="tip ${kind}" r="5" cx="${x + part * (toX - x)}" cy="${now}"/>` : "";
  // a long way is cut where it leaves sight: dashes of a million pixels take seconds
  const at = (wanted) => [x + ((toX - x) * (wanted - y)) / (toY - y), wanted], [startAt, endAt] = [y < least ? at(least) : [x, y], toY > most ? at(most) : [toX, toY]];
  const path = `M${startAt}L${endAt}`, title = `${wayOf(message)}: ${message.detail}${again ? "; handed over again" : ""}${isLost ? "; the node is down" : ""}`;
  return `<path class="way ${kind}${again ? " again" : ""}${isUnder ? " under" : ""}${late}" d="${path}"/>${tip}${dot}<path class="hit" data-start="${start}" data-end="${end}" d="${path}"><title>${title}</title></path>`;
}

// A message that no line hands over: a short way, and a cross. Those of one step end beside one another.
function lostWay({ message, start }, y) {
  const { kind, sender, receiver } = message, side = receiver > sender ? 1 : -1, same = sendsOf[start].filter((it) => !it.handed.length && it.receiver > it.sender === (side > 0));
  const x = widths.x[sender] + side * BAR, toX = x + side * (16 + 13 * (same.indexOf(message) + 1)), toY = y + 13, path = `M${x} ${y}L${toX} ${toY}`;
  return `<path class="way ${kind}${dim(start)}" d="${path}"/>${cross(toX, toY, kind, dim(start))}<path class="hit" data-start="${start}" data-end="${start}" d="${path}"><title>${wayOf(message)}: ${message.detail}; lost</title></path>`;
}

function signsIn(top, bottom) {
  const parts = [];
  for (let row = top; row <= bottom; row++) {
    const place = shown[row];
    if (!place || !steps[place].node) continue;
    const { node, marks } = steps[place], kinds = marks.map(([kind]) => kind);
    const kind = ["stop", "role", "released", "known", "keep", "read", "vote"].find((it) => kinds.includes(it)), [path, colour] = SIGNS[kind] ?? PLAIN;
    parts.push(`<path class="sign${dim(place)}" transform="translate(${widths.x[node]} ${(row - top + 0.5) * ROW})" d="${path}" fill="var(${colour})"/>`);
  }
  return parts.join("");
}

// Where the cursor is goes into sight.
function bringIntoSight() {
  const picture = byId("picture"), y = rowOf[cursor] * ROW, room = picture.clientHeight - 30, edge = Math.min(ABOVE * ROW, room / 3);
  if (y < picture.scrollTop + edge) picture.scrollTop = Math.max(0, y - edge);
  else if (y > picture.scrollTop + room - edge - ROW) picture.scrollTop = y - room + edge + ROW;
}
