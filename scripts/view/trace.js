// The agreed trace as a graph: a column for each lane, a box for each event in the colour of its delta, a line from each of its causes.

const LINE = 24, BOX = 19, WIDE = 158, GAP = 38, EDGE = 10;

const traceLanes = [...new Set(events.map((event) => event.lane))].sort((a, b) => a - b);
const columnOf = new Map(traceLanes.map((lane, at) => [lane, EDGE + at * (WIDE + GAP)]));
// the rows: of a delta and its events, and of the events that were never agreed, by their nodes
const lines = data.trace.flatMap((delta, at) => [{ delta: at + 1 }, ...delta.map(([event]) => ({ event }))]);
for (const node of nodes) {
  const never = events.map((event, at) => at).filter((at) => events[at].node === node && !events[at].delta);
  if (never.length) lines.push({ node, count: never.length }, ...never.map((event) => ({ event })));
}
const lineOf = new Int32Array(events.length);
lines.forEach((line, at) => { if (line.event !== undefined) lineOf[line.event] = at; });
const wires = events.flatMap((event, at) => event.causes.map((cause) => ({ from: cause, to: at })));

function knowsOf(look, node, delta) {
  if (look.of(node, "known") < delta) return ["", `node ${node} doesn't know it`];
  if (look.of(node, "offset") >= delta) return ["gone", `node ${node} knows it, and doesn't hold it any more`];
  return (look.of(node, "replayed") ?? -1) >= delta ? ["run", `node ${node} knows it, and has run it`] : ["known", `node ${node} knows it`];
}

function drawTrace() {
  const panel = byId("trace"), look = lookAt(cursor), board = byId("board");
  if (!lines.length) return board.replaceChildren(make("p", { class: "quiet", style: "padding:8px 12px" }, "Lanes made no event."));
  const top = Math.max(0, Math.floor(panel.scrollTop / LINE) - 2), bottom = Math.min(lines.length - 1, top + Math.ceil(panel.clientHeight / LINE) + 4);
  const width = Math.max(EDGE * 2 + traceLanes.length * (WIDE + GAP), 300), mine = eventAt.get(cursor), parts = [];
  board.style.cssText = `height:${lines.length * LINE + 20}px;width:${width}px`;
  const near = new Set(mine === undefined ? [] : [...events[mine].causes, ...wires.filter((wire) => wire.from === mine).map((wire) => wire.to)]);
  for (let at = top; at <= bottom; at++) parts.push(lines[at].event === undefined ? headOf(look, lines[at], at * LINE) : boxOf(look, lines[at].event, at * LINE, mine, near));
  const svg = make("span", {});
  svg.innerHTML = `<svg width="${width}" height="${(bottom - top + 1) * LINE}" viewBox="0 ${top * LINE} ${width} ${(bottom - top + 1) * LINE}" style="top:${top * LINE}px" aria-hidden="true">${wiresIn(look, top, bottom, mine)}</svg>`;
  board.replaceChildren(svg, ...parts);
  return undefined;
}

function headOf(look, { delta, node, count }, y) {
  if (node) return make("div", { class: "delta", style: `top:${y}px` }, make("b", {}, `of node ${node}, never agreed`), ` ${counted(count, "event")}`);
  return make("div", { class: "delta", style: `top:${y}px` }, make("b", {}, `delta ${delta}`), ` ${counted(data.trace[delta - 1].length, "event")}, known from `, link(firstKnown(delta), `line ${placeName(firstKnown(delta))}`), " on; nodes",
    nodes.map((it) => { const [style, title] = knowsOf(look, it, delta); return make("span", { class: `knows ${style}`, title, role: "img", "aria-label": title }, `${it}`); }));
}

const isKnown = (event) => events[event].delta > 0 && firstKnown(events[event].delta) <= cursor;

function boxOf(look, number, y, mine, near) {
  const event = events[number], name = `${event.lane}.${event.index}`, made = event.place > cursor ? "unmade" : isKnown(number) ? "" : "made";
  const title = `${name} ${event.text}, made by node ${event.node} in line ${placeName(event.place)}${event.causes.length ? `, after ${event.causes.map((cause) => `${events[cause].lane}.${events[cause].index}`).join(" ")}` : ""}${{ unmade: "; not made yet", made: "; not known yet", "": "" }[made]}`;
  return make("button", {
    class: `event ${event.delta ? "" : "lone"} ${made} ${number === mine ? "mine" : near.has(number) ? "near" : ""}`, title, "aria-label": title,
    style: `left:${columnOf.get(event.lane)}px;top:${y + 2}px;width:${WIDE}px;--hue:${(event.delta * 137 + 70) % 360}`, onclick: () => go(event.place),
  }, `${name} ${event.text}`);
}

function wiresIn(look, top, bottom, mine) {
  const parts = [];
  for (const { from, to } of wires) {
    if (lineOf[from] > bottom || lineOf[to] < top) continue;
    const side = events[to].lane > events[from].lane ? 1 : -1, x = columnOf.get(events[from].lane) + (side > 0 ? WIDE : 0), toX = columnOf.get(events[to].lane) + (side > 0 ? 0 : WIDE);
    const y = lineOf[from] * LINE + 2 + BOX / 2 + 3, toY = lineOf[to] * LINE + 2 + BOX / 2 - 3, style = `${from === mine || to === mine ? "near" : ""} ${events[to].place > cursor ? "unmade" : ""}`;
    parts.push(`<path class="wire ${style}" d="M${x} ${y}C${x + side * 26} ${y} ${toX - side * 30} ${toY} ${toX - side * 6} ${toY}"/><path class="wiretip ${style}" d="M${toX} ${toY}l${-8 * side} -3.5v7z"/>`);
  }
  return parts.join("");
}

// The event of the cursor's step, or the delta that it made known, goes into sight.
function bringTraceIntoSight() {
  const panel = byId("trace"), mine = eventAt.get(cursor), delta = knownFirst.indexOf(cursor);
  const at = mine !== undefined ? lineOf[mine] : delta > 0 ? lines.findIndex((line) => line.delta === delta) : -1;
  if (at < 0) return;
  const y = at * LINE;
  if (y < panel.scrollTop + LINE || y > panel.scrollTop + panel.clientHeight - 3 * LINE) panel.scrollTop = Math.max(0, y - panel.clientHeight / 3);
}
