// What stands beside the picture: the line, the nodes, lanes, the service, clients and messages at the cursor; and what came of the run.

const MOST_LISTED = 50, MOST_STORES = 40, MOST_SUMMED = 200;

const link = (place, ...text) => make("button", { class: "link", onclick: () => go(place) }, ...text);
const heading = (text) => make("h2", {}, text);
const nothing = (text) => make("p", { class: "quiet" }, text);

function table(heads, rows) {
  return make("div", { class: "wide" }, make("table", {}, make("thead", {}, make("tr", {}, heads.map((head) => make("th", { scope: "col" }, head)))), make("tbody", {}, rows)));
}

// A list's first items, and how many more there are.
function listed(items, most, shownAs, word) {
  const rest = items.length - most;
  return [...items.slice(0, most).map(shownAs), ...(rest > 0 ? [make("p", { class: "quiet" }, `and ${counted(rest, `more ${word}`, `more ${word}s`)}`)] : [])];
}

function drawState() {
  const look = lookAt(cursor), node = chosen || leaderOf(look);
  fill("state",
    theLine(), heading("Nodes"), nodeTable(look), theNode(look), heading(node ? `Lanes of ${whoseState(look, node)}` : "Lanes"), lanesOf(look, node),
    make("div", { class: "two" },
      make("div", {}, heading("Service"), theService(look, node)),
      make("div", {}, queueOf(look, node), heading("Variables and semaphores"), theStores(look))),
    heading("Clients"), theClients(look), theMessages());
}

function theLine() {
  if (!cursor) return make("div", { class: "said" }, make("pre", {}, "Before the first line. The key → goes on, the space bar plays."));
  const { line, message, marks } = steps[cursor], number = data.schedule[line - 1], above = [];
  for (let at = number - 1; at > 0 && data.scenario[at - 1].trim().startsWith("#"); at--) above.unshift(data.scenario[at - 1].trim());
  const mine = new Set(Array.from({ length: marks.length + (message ? 1 : 0) }, (_, at) => firstText[cursor] + at));
  const firstSend = firstPlace[line] <= last ? Math.min(...allSends(line).map((it) => it.number)) : 0;
  sendsOf[cursor].forEach((it) => mine.add(firstSent[line] + it.number - firstSend));
  const end = firstSent[line] + allSends(line).length, texts = data.report.slice(firstText[firstPlace[line]], end);
  return make("div", { class: "said" },
    make("pre", {}, above.map((text) => make("span", { class: "quiet" }, `${text}\n`)), make("span", { class: "order" }, `${line} ${wordsOf(cursor)}`), make("span", { class: "quiet" }, `   (line ${number} of the scenario)\n`),
      texts.slice(0, 200).map((text, at) => make("span", { class: mine.has(firstText[firstPlace[line]] + at) ? "mine" : "quiet" }, `  ${text.slice(text.indexOf(" ") + 1)}\n`)),
      texts.length > 200 ? `  and ${texts.length - 200} more texts\n` : null));
}

function allSends(line) {
  const all = [];
  for (let place = firstPlace[line]; place <= lastPlace[line]; place++) all.push(...sendsOf[place]);
  return all;
}

function roleOf(role) {
  return make("span", { class: `role ${role}` }, role);
}

// How many nodes have promised or accepted so far, of the majority that is needed, and which.
function countOf(look, node) {
  const who = look.of(node, "counted"), open = look.of(node, "open");
  if (!who || (look.of(node, "role") !== "candidate" && !open)) return "";
  return `${open ? `delta ${open[0]} (${counted(open[1], "event")}) is accepted` : "is promised"} by ${who.join(" ")}, ${who.length} of ${Math.floor(data.nodes / 2) + 1}`;
}

function nodeTable(look) {
  const cell = (node, names, text, style = "number") => make("td", { class: `${style}${names.some((name) => look.isNew(`${node} ${name}`)) ? " new" : ""}` }, text ?? "");
  const plain = (node, name) => cell(node, [name], look.of(node, name) === null ? "" : `${look.of(node, name)}`);
  return [table(["node", "role", "ballot", "promised", "known", "replayed", "base", "offset", "live"], nodes.map((node) => make("tr", { class: chosen === node ? "chosen-node" : "" },
    make("td", {}, make("button", { class: "link", "aria-pressed": `${chosen === node}`, onclick: () => choose(node, false, true) }, `${node}`)), cell(node, ["role"], roleOf(look.of(node, "role")), ""),
    ...["ballot", "promised", "known", "replayed", "base", "offset", "live"].map((name) => plain(node, name))))), make("ul", { class: "plain" }, nodes.flatMap((node) => more(look, node)))];
}

// What else there is of a node: what it counts, what it accepted and doesn't know, its keeper.
function more(look, node) {
  const accepted = look.of(node, "accepted"), fails = look.of(node, "fails");
  const lines = [
    [countOf(look, node), ["counted", "open"]], [accepted ? `has accepted delta ${look.of(node, "known") + 1} of ballot ${accepted[0]}, and doesn't know it` : "", ["accepted"]],
    [fails ? `its next record fails, and is ${fails}` : "", ["fails"]], [look.of(node, "old") ? "its last checkpoint is of version 1" : "", ["old"]],
  ];
  return lines.filter(([text]) => text).map(([text, names]) => make("li", { class: names.some((name) => look.isNew(`${node} ${name}`)) ? "new" : "" }, `node ${node}: ${text}`));
}

function theNode(look) {
  if (!chosen) return null;
  const before = nextOf(chosen, -1), after = nextOf(chosen, 1);
  return make("p", {}, `Node ${chosen} is chosen: `, before ? link(before, "its step before") : "no step before", ", ", after ? link(after, "its next step") : "no next step", ", ", make("button", { class: "link", onclick: () => choose(chosen, false, true) }, "choose none"), ".");
}

function nextOf(node, way) {
  for (let place = cursor + way; place > 0 && place <= last; place += way) if (steps[place].node === node) return place;
  return 0;
}

function whoseState(look, node) {
  const role = look.of(node, "role");
  if (role === "down") return `node ${node}, which is down`;
  return role === "active" ? `node ${node}, which leads` : `node ${node}, after delta ${look.of(node, "replayed")}`;
}

// The busy lanes of a node: their numbers, and what they are at.
function busyLanes(look, node) {
  return Array.from({ length: node ? data.lanes : 0 }, (_, at) => [at + 1, look.of(node, `lane ${at + 1}`)]).filter(([, it]) => it !== null);
}

function theService(look, node) {
  const at = new Map(), lines = data.service.map((number) => [number, data.scenario[number - 1]]);
  for (const [lane, it] of busyLanes(look, node)) at.set(it.line, [...(at.get(it.line) ?? []), [lane, it]]);
  return make("div", { class: "code" }, lines.map(([number, text]) => {
    const here = at.get(number) ?? [];
    return make("div", { class: here.length ? "at" : "" }, make("span", { class: "quiet" }, `${number}`), make("span", {}, text),
      make("span", {}, here.map(([lane, it]) => make("span", { class: `chip${it.hindered ? " stuck" : ""}`, title: `lane ${lane}: ${it.hindered ?? "can go on"}` }, `lane ${lane}`))));
  }));
}

function lanesOf(look, node) {
  if (!node) return nothing("No node leads. Choose a node to see the lanes of its state.");
  const busy = busyLanes(look, node), idle = data.lanes - busy.length;
  const rows = busy.map(([lane, it]) => make("tr", { class: look.isNew(`${node} lane ${lane}`) ? "new" : "" },
    make("td", {}, `${lane}`), make("td", {}, requestOf(it.request)), make("td", {}, `${it.line} ${data.scenario[it.line - 1].trim()}`), make("td", {}, it.held.join(", ")), make("td", {}, it.hindered ?? ""),
    make("td", {}, Object.entries(it.locals).map(([name, value]) => `${name}=${value}`).join(" "))));
  return [busy.length ? table(["lane", "request", "stands at", "holds", "waits", "locals"], rows) : null, idle ? nothing(look.of(node, "role") === "down" ? "none" : `${busy.length ? "and " : ""}${counted(idle, "idle lane")}`) : null];
}

function queueOf(look, node) {
  if (!node || look.of(node, "role") !== "active") return null;
  const queue = look.of(node, "queue");
  return [heading("Requests that wait for a lane"), queue ? make("ul", { class: "plain" }, listed(queue, MOST_LISTED, (it) => make("li", {}, requestOf(it)), "request")) : nothing("none")];
}

function theStores(look) {
  let names = data.stores;
  if (!names.length) return nothing("the service declares none");
  const isNew = (name) => nodes.some((node) => look.isNew(`${node} = ${name}`));
  if (names.length > MOST_STORES) names = [...names.filter(isNew), ...names.filter((name) => !isNew(name))].slice(0, MOST_STORES);
  const rows = names.map((name) => make("tr", {}, make("td", {}, name), ...nodes.map((node) => make("td", { class: `number${look.isNew(`${node} = ${name}`) ? " new" : ""}` }, look.of(node, `= ${name}`) ?? ""))));
  return make("div", {}, table(["", ...nodes.map((node) => `node ${node}`)], rows), names.length < data.stores.length ? nothing(`${names.length} of ${data.stores.length} are shown, those that changed first`) : null);
}

function theClients(look) {
  const rows = [];
  for (let client = 1; client <= 256; client++) {
    const asked = look.value(`client ${client} asked`), released = look.value(`client ${client} released`), seen = look.value(`client ${client} seen`);
    if (!asked && !released && seen === null) continue;
    const isOut = asked && released && requestOf(asked[0]).split(/\s+/)[1] === `${released[0]}`;
    rows.push(make("tr", {}, make("td", {}, `${client}`), make("td", {}, asked ? requestOf(asked[0]) : ""),
      make("td", { class: look.isNew(`client ${client} asked`) ? "new" : "" }, asked ? [`node ${asked[1]}, `, link(asked[2], `line ${placeName(asked[2])}`), `: ${steps[asked[2]].marks[0]?.[1] ?? ""}`] : ""),
      make("td", { class: look.isNew(`client ${client} released`) ? "new" : "" }, released ? [`${isOut ? "" : `of request ${released[0]}: `}${released[1]}, `, link(released[2], `line ${placeName(released[2])}`)] : asked ? "not released" : ""),
      make("td", { class: "number" }, seen === null ? "" : `${seen}`)));
  }
  if (!rows.length) return nothing("no client has asked for anything");
  return make("div", {}, table(["client", "its last request", "handed in", "reply released", "seen"], rows.slice(0, MOST_LISTED)), rows.length > MOST_LISTED ? nothing(`and ${counted(rows.length - MOST_LISTED, "more client")}`) : null);
}

function theMessages() {
  const flying = inFlight(cursor), will = flying.filter((it) => it.handed.length).reverse(), lost = flying.filter((it) => !it.handed.length).reverse();
  const row = (it) => make("tr", {}, make("td", {}, make("span", { class: `kind ${it.kind}` }, nameOf(it))), make("td", {}, `${it.sender} to ${it.receiver}`), make("td", {}, it.detail), make("td", {}, link(it.sent, `line ${placeName(it.sent)}`)),
    make("td", {}, it.handed.length ? link(it.handed[0], `line ${placeName(it.handed[0])}`) : "never"));
  const rows = [...will, ...lost];
  return [
    heading(`Messages in flight: ${flying.length}`),
    rows.length ? table(["message", "way", "carries", "sent", "handed over"], rows.slice(0, MOST_LISTED).map(row)) : nothing("none"), rows.length > MOST_LISTED ? nothing(`and ${counted(rows.length - MOST_LISTED, "more message")}`) : null,
  ];
}

// ---- what came of the run

function drawSummary() {
  const of = (...kinds) => steps.slice(1).flatMap(({ marks, node }, at) => marks.filter(([kind]) => kinds.includes(kind)).map(([kind, label, text]) => ({ place: at + 1, node, kind, text, label })));
  const marked = (list) => list.map(({ place, node, label }) => [place, `${node ? `node ${node}: ` : ""}${label}`]);
  const roles = of("role"), sent = messages.slice(1);
  const parts = [
    ["Elections", marked(roles.filter(({ text }) => / active ballot /.test(text)))], ["Candidates and adoptions", marked(roles.filter(({ text }) => / (candidate|adopts) /.test(text)))], ["Steps back to follower", marked(roles.filter(({ text }) => text.endsWith(" follower")))],
    ["Replies released", marked(of("released"))], ["Reads by clients", marked(of("read"))],
    ["Deltas agreed", data.trace.map((delta, at) => [firstKnown(at + 1), `delta ${at + 1}, ${counted(delta.length, "event")}`])],
    ["Messages that no line hands over", sent.filter((it) => !it.handed.length).map((it) => [it.sent, `${wayOf(it)}: ${it.detail}`])],
    ["Messages that came to a node that was down", sent.flatMap((it) => it.handed.filter(isDown).map((place) => [place, `${wayOf(it)}: ${it.detail}`]))],
    ["Messages that came again", sent.flatMap((it) => it.handed.slice(1).map((place) => [place, `${wayOf(it)}: ${it.detail}`]))],
    ["Stops, starts, failures", marked(of("stop"))], ["Checkpoints, replays, drops", marked(of("keep"))], ["States taken over", marked(of("known").filter(({ text }) => text.includes("transferred")))],
  ];
  const ends = data.report.slice(-data.nodes);
  fill("summary",
    make("p", {}, `${counted(data.schedule.length, "schedule line")}, ${counted(last, "step")}, ${counted(sent.length, "message")}, ${counted(data.events.length, "event")} of lanes, ${counted(data.trace.length, "agreed delta")}.`),
    ...parts.filter(([, items]) => items.length).map(([title, items]) => make("details", { open: items.length <= 12 }, make("summary", {}, `${title}: ${items.length.toLocaleString("en")}`),
      make("ul", { class: "plain" }, listed(items, MOST_SUMMED, ([place, text]) => make("li", {}, link(place, `line ${placeName(place)}`), ` ${text}`), "line")))),
    heading("At the end"), make("pre", {}, ends.map((text) => `${text.slice(4)}\n`)));
}

// The first step after which a node knows so many deltas.
const knownFirst = [];
data.changes.forEach((some, place) => {
  for (let at = 0; at < some.length; at += 2) {
    if (data.names[some[at]].endsWith(" known")) for (let count = knownFirst.length || 1; count <= data.values[some[at + 1]]; count++) knownFirst[count] = place;
  }
});
const firstKnown = (delta) => knownFirst[delta];

// ---- the legend

function drawLegend() {
  const sign = (kind) => { const [path, colour] = SIGNS[kind] ?? PLAIN; return drawn(`<path d="${path}" transform="translate(12 9)" fill="var(${colour})"/>`); };
  const drawn = (inside) => { const it = make("span", {}); it.innerHTML = `<svg width="34" height="18" aria-hidden="true">${inside}</svg>`; return it; };
  const arrow = (kind, style = "") => drawn(`<path class="way ${kind} ${style}" d="M2 9H24"/><path class="tip ${kind}" d="M32 9l-9-4v8z"/>`);
  const entries = (list) => make("dl", {}, list.map(([what, text]) => [make("dt", {}, what), make("dd", {}, text)]));
  fill("legend",
    heading("Keys"), entries([["← →", "the step before, the next one"], ["Home End", "the start, the end"], ["Page ↑ Page ↓", "twenty steps"], ["space", "plays, and stops"], ["/", "to the search box"], ["n N", "the next match, the one before"]]),
    heading("Bars"), entries(["follower", "candidate", "adopting", "active", "down"].map((role) => [roleOf(role), { follower: "follows", candidate: "asks to lead", adopting: "proposes anew what it found accepted", active: "leads", down: "is down" }[role]])),
    heading("Messages"), entries([[arrow("prepare"), "prepare, promise"], [arrow("accept"), "accept, accepted"], [arrow("chosen"), "chosen"], [arrow("nack"), "nack"], [arrow("ask"), "ask, snapshot"], [arrow("prepare", "again"), "one that was handed over before"],
      [drawn('<path class="way prepare" d="M2 9H22"/><path class="cross prepare" d="M20 5l8 8m0-8l-8 8"/>'), "one that no line hands over, or that comes to a node that is down"], [drawn('<circle class="tip prepare" r="5" cx="14" cy="9"/>'), "where a message in flight is at the cursor"]]),
    heading("Signs"), entries([[sign("role"), "a role"], [sign("vote"), "a promise, a proposal, an acceptance"], [sign("known"), "a delta is known"], [sign("released"), "a reply is released"], [sign("read"), "a client reads"], [sign("keep"), "a checkpoint, a replay, a drop"], [sign("stop"), "a stop, a start, a failure"]]),
    heading("The trace"), entries([[make("span", { class: "knows run" }, "1"), "node 1 knows the delta, and has run it"], [make("span", { class: "knows known" }, "1"), "it knows the delta"], [make("span", { class: "knows gone" }, "1"), "it knows the delta, and doesn't hold it any more"], [make("span", { class: "knows" }, "1"), "it doesn't know the delta"]]),
    heading("Where this is from"), make("p", {}, "What nodes are after a step is what tests/model, the rules in Python, has there. This page was made because its report of the scenario has the same bytes as the one that is shown. A number such as 12.3 is the third delivery of line 12."));
}
