// Keys, buttons, the search box, and the address: #line=12&tab=trace&node=2&find=word

const TABS = ["state", "trace", "summary", "legend"];
let tab = "state", timer = 0, asked = 0, addressTimer = 0, isSummed = false;

function go(place, isPlaying = false) {
  cursor = Math.max(0, Math.min(last, place));
  bringIntoSight();
  draw();
  byId("slide").value = cursor;
  byId("slide").setAttribute("aria-valuetext", toldOf(cursor));
  byId("where").textContent = cursor ? `line ${placeName(cursor)} of ${data.schedule.length}` : `start of ${data.schedule.length} lines`;
  if (!isPlaying) byId("told").textContent = toldOf(cursor);
  if (tab === "trace") bringTraceIntoSight();
  clearTimeout(addressTimer);
  addressTimer = setTimeout(writeAddress, 200);
}

function draw() {
  if (asked) return;
  asked = requestAnimationFrame(() => {
    asked = 0;
    drawHeads();
    drawPicture();
    drawTab();
  });
}

function drawTab() {
  if (tab === "state") drawState();
  if (tab === "trace") drawTrace();
  if (tab === "summary" && !isSummed) { drawSummary(); isSummed = true; }
}

function choose(node, isBack = false, stays = false) {
  const isSame = chosen === node;
  chosen = isSame && stays ? 0 : node;
  const next = stays ? 0 : nextOf(node, isBack ? -1 : 1);
  go(next || cursor);
}

function openTab(name) {
  tab = name;
  for (const it of TABS) {
    byId(it).hidden = it !== name;
    byId(`tab-${it}`).setAttribute("aria-selected", `${it === name}`);
  }
  if (name === "trace") bringTraceIntoSight();
  draw();
  writeAddress();
}

// ---- playing

function play(isOn = !timer) {
  clearInterval(timer);
  timer = isOn ? setInterval(playOn, Number(byId("speed").value)) : 0;
  byId("play").textContent = timer ? "stop" : "play";
}

function playOn() {
  if (cursor >= last) return play(false);
  return go(shownAfter(cursor), true);
}

// ---- searching

let texts = null, matches = [];

function find() {
  const wanted = byId("find").value.toLowerCase().split(/\s+/).filter(Boolean);
  texts ??= steps.map((_, place) => textOf(place));
  found.fill(0);
  matches = [];
  for (let place = 1; wanted.length && place <= last; place++) {
    if (!wanted.every((word) => texts[place].includes(word))) continue;
    found[place] = 1;
    matches.push(place);
  }
  byId("matches").textContent = wanted.length ? counted(matches.length, "match", "matches") : "";
  if (byId("show").value === "found") showSteps("found");
  draw();
}

function toMatch(way) {
  const next = way > 0 ? matches.find((place) => place > cursor) ?? matches[0] : [...matches].reverse().find((place) => place < cursor) ?? matches[matches.length - 1];
  if (next !== undefined) go(next);
  if (matches.length) byId("matches").textContent = `${matches.indexOf(cursor) + 1} of ${counted(matches.length, "match", "matches")}`;
}

// ---- the address

function writeAddress() {
  const parts = [`line=${placeName(cursor)}`, tab === "state" ? "" : `tab=${tab}`, chosen ? `node=${chosen}` : "", byId("find").value ? `find=${encodeURIComponent(byId("find").value)}` : ""];
  try {
    history.replaceState(null, "", `#${parts.filter(Boolean).join("&")}`);
  } catch { /* a browser may take only so many a minute */ }
}

function readAddress() {
  const parts = new URLSearchParams(location.hash.slice(1)), [line, step] = (parts.get("line") ?? "0").split(".").map(Number);
  const node = Number(parts.get("node")), name = parts.get("tab");
  chosen = nodes.includes(node) ? node : 0;
  if (parts.get("find")) { byId("find").value = parts.get("find"); find(); }
  if (TABS.includes(name)) openTab(name);
  const place = line >= 1 ? (lastPlace[Math.min(line, data.schedule.length)] ?? 0) : 0;
  go(step >= 1 ? Math.min(place, firstPlace[line] + step - 1) : place);
}

// ---- keys

const KEYS = {
  ArrowRight: () => go(shownAfter(cursor)), ArrowLeft: () => go(shownBefore(cursor)), ArrowDown: () => go(shownAfter(cursor)), ArrowUp: () => go(shownBefore(cursor)), Home: () => go(0), End: () => go(last),
  PageDown: () => go(shown[Math.min(shown.length - 1, rowOf[cursor] + 20)]), PageUp: () => go(shown[Math.max(0, rowOf[cursor] - 20)]),
  " ": () => play(), "/": () => byId("find").focus(), n: () => toMatch(1), N: () => toMatch(-1),
};

function onKey(event) {
  const at = event.target, isTyping = at.matches("input[type=search], select"), isButton = at.matches("button, summary");
  if (event.ctrlKey || event.metaKey || event.altKey) return;
  if (isTyping && event.key === "Escape") at.blur();
  if (at.id === "find" && event.key === "Enter") toMatch(event.shiftKey ? -1 : 1);
  if (isTyping || !KEYS[event.key] || (isButton && event.key === " ")) return;
  event.preventDefault();
  KEYS[event.key]();
}

// ---- the start

function listen() {
  document.addEventListener("keydown", onKey);
  window.addEventListener("resize", layOut);
  window.addEventListener("hashchange", readAddress);
  byId("picture").addEventListener("scroll", () => draw(), { passive: true });
  byId("trace").addEventListener("scroll", () => draw(), { passive: true });
  byId("ways").addEventListener("click", ({ target: { dataset: { start, end } } }) => { if (end) go(Number(end) === cursor ? Number(start) : Number(end)); });
  byId("first").addEventListener("click", () => go(0));
  byId("back").addEventListener("click", () => go(shownBefore(cursor)));
  byId("play").addEventListener("click", () => play());
  byId("next").addEventListener("click", () => go(shownAfter(cursor)));
  byId("end").addEventListener("click", () => go(last));
  byId("speed").addEventListener("change", () => { if (timer) play(true); });
  byId("slide").addEventListener("input", ({ target }) => go(Number(target.value)));
  byId("show").addEventListener("change", ({ target }) => { showSteps(target.value); go(cursor); });
  let waiting = 0;
  byId("find").addEventListener("input", () => { clearTimeout(waiting); waiting = setTimeout(() => { find(); writeAddress(); }, 150); });
  for (const name of TABS) byId(`tab-${name}`).addEventListener("click", () => openTab(name));
}

byId("slide").max = last;
listen();
drawLegend();
showSteps("all");
readAddress();
