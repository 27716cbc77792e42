"use strict";
/* The bench: what hits.js doesn't have. What a user or a file wrote becomes text of nodes, and never markup. */

/* ---- the server ---- */
if (/^#[0-9a-f]{32}$/.test(location.hash)) {
  sessionStorage.setItem("token", location.hash.slice(1));
  history.replaceState(null, "", location.pathname);
}
/* The link of another start, opened where this page is: it differs behind `#` alone, for which no browser loads a page. */
addEventListener("hashchange", () => { if (/^#[0-9a-f]{32}$/.test(location.hash)) location.reload(); });
const TOKEN = sessionStorage.getItem("token") || "";
const HEADS = { "X-Markush-Token": TOKEN, "Content-Type": "application/json" };
class Fault extends Error { constructor(words, line) { super(words); this.line = line; } }
let isLost = false;
const pause = (ms) => new Promise((done) => setTimeout(done, ms));

async function send(path, body, heads) {
  let answer;
  try {
    answer = await fetch("/api/" + path, { method: "POST", body, headers: heads, credentials: "omit", cache: "no-store" });
  } catch (fault) {
    throw new Fault("The server doesn't answer. Was it ended? Start it again, and open the link that it prints.");
  }
  if (answer.status === 403) {
    isLost = true;
    throw new Fault("This page isn't let in: open the link that the server printed at its start. Each start has another one.");
  }
  if (answer.status === 413) throw new Fault("The file has more than 64 MiB; pack it by gzip or xz, or send it in parts.");
  if (!answer.ok) throw new Fault(`The server answered with ${answer.status}; its terminal may say why.`);
  return answer;
}
function judged(found) {
  if (found && found.fault !== undefined && typeof found.fault === "string" && !("state" in found)) throw new Fault(found.fault, found.line);
  return found;
}
const ask = async (path, words = {}) => judged(await (await send(path, JSON.stringify(words), HEADS)).json());
/* What takes longer: asked for by a ticket until it's there. */
async function job(path, words, tell) {
  const { ticket } = await ask(path, words);
  for (let wait = 20; ; wait = Math.min(250, wait * 1.15)) {
    const answer = await send("ticket", JSON.stringify({ ticket }), HEADS), data = await answer.blob();
    const isJson = (answer.headers.get("Content-Type") || "").startsWith("application/json");
    const front = isJson ? await data.slice(0, 14).text() : "";
    if (front.startsWith('{"waits":true')) { const { told } = JSON.parse(await data.text()); if (tell) tell(told); await pause(wait); continue; }
    if (isJson && (front.startsWith('{"found":') || front.startsWith('{"fault":'))) return judged(JSON.parse(await data.text())).found;
    return data;
  }
}
function showFault(words) { $("fault").hidden = !words; $("fault").firstElementChild.textContent = words || ""; }
$("fault-off").addEventListener("click", () => showFault(""));
/* A deed of a control: what goes wrong is said, and not lost. */
const deed = (does) => async (event) => {
  if (event && event.preventDefault) event.preventDefault();
  try { await does(event); } catch (fault) { if (!(fault instanceof Fault)) console.error(fault); showFault(fault.message); }
};
const on = (id, kind, does) => $(id).addEventListener(kind, deed(does));
const textOf = async (file) => {
  const data = await file.arrayBuffer();
  try { return new TextDecoder("utf-8", { fatal: true }).decode(data); } catch (fault) { return new TextDecoder("latin1").decode(data); }
};
const choose = (select, rows, wanted) => {
  const had = wanted === undefined ? select.value : wanted, key = JSON.stringify(rows);
  if (select.dataset.rows !== key) { select.dataset.rows = key; select.replaceChildren(...rows.map(([value, words]) => make("option", { value }, words))); }
  if (rows.some(([value]) => String(value) === String(had))) select.value = had;
};

/* ---- the parts ---- */
const VIEWS = ["claims", "hits", "why", "compounds"];
let view = "";
function show(name) {
  if (name === view) return;
  view = name;
  for (const each of VIEWS) {
    $(each).hidden = each !== name;
    $("tab-" + each).setAttribute("aria-selected", String(each === name));
    $("tab-" + each).tabIndex = each === name ? 0 : -1;
  }
  if (name === "compounds") find(0).catch((fault) => showFault(fault.message));
  scrollTo(0, 0);
}
for (const each of VIEWS) $("tab-" + each).addEventListener("click", () => show(each));
document.querySelector("nav").addEventListener("keydown", (event) => {
  const at = VIEWS.indexOf(view), to = event.key === "ArrowRight" ? at + 1 : event.key === "ArrowLeft" ? at - 1 : -1;
  if (to < 0 || to >= VIEWS.length) return;
  event.stopPropagation();
  show(VIEWS[to]);
  $("tab-" + view).focus();
});

/* ---- the state, asked for again and again ---- */
let state = null;
/* The pause between two looks, which ends where something was asked for that will soon be otherwise. */
let endPause = () => {};
const untilNext = (ms) => new Promise((done) => { const timer = setTimeout(done, ms); endPause = () => { clearTimeout(timer); done(); }; });
const isActive = () => state && (!state.library.isOpen || state.library.read !== null || state.busy || state.searches.some((s) => s.state === "running" || s.state === "waiting") || state.loads.some((l) => !["done", "failed"].includes(l.state)));
/* A search runs that is shown, and nothing of it is on the screen. */
const awaitsFirst = () => view === "hits" && current && !D.names.length && state && state.searches.some((s) => s.id === current.id && (s.state === "running" || s.state === "waiting"));
async function look() {
  const before = state;
  state = await ask("state");
  showState(before);
}
async function lookOn() {
  for (;;) {
    try {
      await look();
      if ($("fault").dataset.ofServer) { showFault(""); delete $("fault").dataset.ofServer; }
    } catch (fault) {
      if (!(fault instanceof Fault)) console.error(fault);
      showFault(fault.message);
      $("fault").dataset.ofServer = "1";
      if (isLost) { $("library").textContent = ""; return; }
      await pause(2000);
    }
    await untilNext(document.hidden ? 2500 : awaitsFirst() ? 50 : isActive() ? 250 : 1000);
  }
}
function showState(before) {
  const { library, busy } = state;
  const reading = library.read !== null ? `; ${said(library.read)} read` : "";
  $("library").textContent = library.fault ? library.fault : !library.isOpen ? "The library is being opened ..." : `${library.name || "a library that goes with the server"}: ${plural(library.records, "compound")}, open${reading}`;
  $("busy").hidden = !busy;
  if (busy) $("busy").firstElementChild.textContent = `One command takes long: ${busy.what}, for ${busy.seconds} s.`;
  showKept();
  showSearches();
  showLoads(before);
  if (before && before.verdicts !== state.verdicts && current) pullVerdicts().catch(() => {});
  if (before && before.library.revision !== library.revision && view === "compounds") find(foundFrom).catch(() => {});
}
on("end", "click", () => ask("end"));

/* ---- the claim that is written ---- */
const source = $("source");
let typing = 0, asked = 0, faultLine = 0;
function showLines() {
  const count = source.value.split("\n").length, gutter = $("gutter");
  if (gutter.childElementCount !== count) gutter.replaceChildren(...Array.from({ length: Math.min(count, 20000) }, (_, k) => make("div", {}, String(k + 1))));
  [...gutter.querySelectorAll(".bad")].forEach((line) => line.classList.remove("bad"));
  if (faultLine && gutter.children[faultLine - 1]) gutter.children[faultLine - 1].classList.add("bad");
  placeMark();
}
function placeMark() {
  $("gutter").scrollTop = source.scrollTop;
  $("mark").hidden = !faultLine;
  $("mark").style.top = `${6 + 20 * (faultLine - 1) - source.scrollTop}px`;
}
source.addEventListener("scroll", placeMark);
function claimFault(words, line) {
  faultLine = line || 0;
  $("claim-fault").hidden = !words;
  $("claim-fault").textContent = words ? (line && !words.includes(`line ${line}`) ? `Line ${line}: ${words}` : words) : "";
  source.setAttribute("aria-invalid", String(Boolean(words)));
  showLines();
}
async function readClaim() {
  const mine = ++asked, text = source.value;
  if (!text.trim()) { claimFault("", 0); $("drawn-sum").textContent = "Nothing is pasted yet."; for (const id of ["drawn-root", "drawn-groups", "drawn-legend", "drawn-notes"]) $(id).replaceChildren(); return; }
  try {
    const found = await job("claim/read", { text });
    if (mine !== asked) return;
    claimFault("", 0);
    drawClaim(found, $("drawn-root"), $("drawn-groups"), $("drawn-legend"));
    $("drawn-sum").textContent = `${found.title || "without a title"}: ${plural(found.groups.length, "group")}, ${BigInt(found.codes).toLocaleString("en")} structural code${found.codes === "1" ? "" : "s"}`;
    $("drawn-notes").replaceChildren(...found.notes.map((note) => make("p", { class: "quiet" }, note)));
  } catch (fault) {
    if (mine !== asked) return;
    if (!(fault instanceof Fault)) throw fault;
    claimFault(fault.message, fault.line);
    $("drawn-sum").textContent = $("drawn-root").firstChild ? "Drawn as it was before the fault." : "Not drawn: what is at fault stands below the text.";
  }
}
source.addEventListener("input", () => { clearTimeout(typing); faultLine = 0; showLines(); typing = setTimeout(deed(readClaim), 200); });
async function takeClaim(text, name) {
  source.value = text;
  if (!$("claim-name").value) $("claim-name").value = name.replace(/\.[^.]*$/, "").slice(0, 100);
  showLines();
  await readClaim();
}
on("claim-file", "click", () => $("claim-input").click());
on("claim-input", "change", async () => { const [file] = $("claim-input").files; if (file) await takeClaim(await textOf(file), file.name); $("claim-input").value = ""; });
function dropped(node, take) {
  for (const kind of ["dragenter", "dragover"]) node.addEventListener(kind, (event) => { event.preventDefault(); node.classList.add("dropping"); });
  for (const kind of ["dragleave", "drop"]) node.addEventListener(kind, () => node.classList.remove("dropping"));
  node.addEventListener("drop", deed((event) => take([...event.dataTransfer.files])));
}
dropped($("editor"), async ([file]) => { if (file) await takeClaim(await textOf(file), file.name); });
for (const kind of ["dragover", "drop"]) addEventListener(kind, (event) => event.preventDefault());
async function keepClaim() {
  try {
    let name = $("claim-name").value.trim();
    if (!name) { const title = source.value.match(/^title (.+)$/m); name = $("claim-name").value = title ? title[1].trim().slice(0, 100) : "claim"; }
    const kept = await job("claim/keep", { name, text: source.value });
    claimFault("", 0);
    return kept;
  } catch (fault) {
    if (!(fault instanceof Fault) || isLost) throw fault;
    claimFault(fault.message, fault.line);
    return null;
  }
}
async function keepAndSearch() { const kept = await keepClaim(); if (kept) await search(kept.name, kept.version); }
on("editor", "submit", keepAndSearch);
on("keep-only", "click", async () => { if (await keepClaim()) await look(); });
source.addEventListener("keydown", (event) => { if (event.key === "Enter" && (event.ctrlKey || event.metaKey)) deed(keepAndSearch)(event); });

/* ---- kept claims ---- */
const searchOf = (name, version) => state.searches.find((s) => s.claim === name && s.version === version);
const farOf = (s) => `${{ waiting: "waiting", running: "running", stopped: "stopped", ended: "done", failed: "stopped" }[s.state]}: ${plural(s.hits, "hit")} in ${plural(s.records, "compound")}${s.stale ? "; compounds changed since" : ""}`;
let keptKey = "";
function showKept() {
  const key = JSON.stringify([state.claims, state.searches.map((s) => [s.id, s.state, s.hits, s.stale])]);
  if (key === keptKey) return;
  keptKey = key;
  const rows = [], choices = [];
  for (const { name, versions } of state.claims) [...versions].reverse().forEach((v, at) => {
    choices.push([JSON.stringify([name, v.number]), `${name}, version ${v.number}`]);
    const found = searchOf(name, v.number);
    const button = (words, does, label) => { const node = make("button", { "aria-label": `${label || words}: ${name}, version ${v.number}` }, words); node.addEventListener("click", deed(does)); return node; };
    const buttons = [button(found ? "Hits" : "Search", () => search(name, v.number)), button("Edit", () => edit(name, v.number))];
    if (at === 0 && versions.length > 1) buttons.push(button("Compare", () => openCompare(name)));
    if (at === 0) buttons.push(button("Forget", async () => { if (confirm(`Forget the claim '${name}' with its versions and searches?`)) { await ask("claim/forget", { name }); await look(); } }));
    rows.push(make("tr", {}, make("td", {}, ...(at ? [] : [name])), make("td", {}, make("span", { class: "narrow" }, "version "), `${v.number}, ${v.date}`), make("td", {}, BigInt(v.codes).toLocaleString("en"), make("span", { class: "narrow" }, " structural codes")), make("td", {}, found ? farOf(found) : "not searched yet"), make("td", {}, ...buttons.flatMap((b) => [b, " "]))));
  });
  const body = $("kept").querySelector("tbody");
  const at = [...body.querySelectorAll("button")].indexOf(document.activeElement);
  body.replaceChildren(...(rows.length ? rows : [make("tr", {}, make("td", { colspan: 5, class: "quiet" }, "None yet."))]));
  if (at >= 0 && body.querySelectorAll("button")[at]) body.querySelectorAll("button")[at].focus();
  choose($("why-claim"), choices);
}
async function edit(name, version) {
  const found = await ask("claim", { name, version });
  $("claim-name").value = name;
  source.value = found.source;
  showLines();
  await readClaim();
  scrollTo(0, 0);
  source.focus();
}
let compared = "";
function openCompare(name) {
  compared = name;
  const versions = state.claims.find((c) => c.name === name).versions.map((v) => [v.number, `version ${v.number}`]);
  choose($("compare-before"), versions, versions[versions.length - 2][0]);
  choose($("compare-after"), versions, versions[versions.length - 1][0]);
  $("compare").hidden = false;
  $("compare-title").textContent = `Two versions of '${name}' side by side`;
  $("compared").replaceChildren();
  return compare();
}
async function searched(id, tell) {
  for (;;) {
    await look();
    const found = state.searches.find((s) => s.id === id);
    if (!found) throw new Fault("the search isn't there any more");
    if (found.state === "ended") return;
    if (found.state === "failed" || found.state === "stopped") throw new Fault(found.fault || "the search was stopped; go on with it first");
    tell(`version ${found.version} is searched: ${said(found.done)} of ${said(found.of)} records`);
    await pause(200);
  }
}
async function compare() {
  const before = +$("compare-before").value, after = +$("compare-after").value, tell = (words) => { $("compare-told").textContent = words; };
  tell("the versions are compared ...");
  for (const [which, version] of [["before", before], ["after", after]]) {
    const found = await ask("claim", { name: compared, version });
    $(which + "-title").textContent = `Version ${version}, ${found.date}`;
    $(which + "-source").textContent = found.source;
  }
  for (const version of [before, after]) {
    const { id } = await ask("search", { name: compared, version });
    await searched(id, tell);
    // compounds that came or went in between are no doing of the claim's
    if (state.searches.find((s) => s.id === id).stale) { await ask("search/again", { id }); await searched(id, tell); }
  }
  const found = await job("compare", { name: compared, before, after }, tell);
  tell(`${plural(found.both, "compound")} hit by both, ${said(found.gained.length)} gained, ${said(found.lost.length)} lost`);
  const lists = [["gained", `Gained by version ${after}`, `why version ${before} didn't hit it`], ["lost", `Lost by version ${after}`, `why version ${after} doesn't hit it`]];
  $("compared").replaceChildren(...lists.map(([kind, title, why]) => make("div", {}, make("h3", {}, `${title}: ${said(found[kind].length)}`), found[kind].length ? tableOf(["record", "name", why], found[kind].slice(0, 500)) : "")));
  $("compare").scrollIntoView({ block: "nearest" });
}
on("compare-go", "click", compare);
function tableOf(head, rows) {
  return make("div", { class: "wide" }, make("table", {}, make("thead", {}, make("tr", {}, ...head.map((word) => make("th", { scope: "col" }, word)))), make("tbody", {}, ...rows.map((cells) => make("tr", {}, ...cells.map((cell) => make("td", {}, cell instanceof Node ? cell : String(cell))))))));
}

/* ---- searches ---- */
let current = null; // the search that is shown: its number, run, and what is known of it
async function search(name, version) {
  const [{ id }, { view: claim }] = await Promise.all([ask("search", { name, version }), ask("claim", { name, version })]);
  begin(id, name, version, claim);
  show("hits");
  await look();
  endPause();
}
const EMPTY = { tables: [], groups: [], legend: {}, facets: [], choices: [], names: [], records: [], items: [], values: [], hits: [] };
const cardData = new Map(), wanted = new Set(), verdicts = new Map();
let shas = [], verdictFilter = "", itemValues = null, isTable = false, usedCount = 0;
function begin(id, name, version, claim) {
  current = { id, run: -1, claim, name, version, isWhole: false };
  reset();
}
async function open(id) {
  const found = state.searches.find((s) => s.id === id);
  if (!found) return;
  const { view: claim } = await ask("claim", { name: found.claim, version: found.version });
  begin(id, found.claim, found.version, claim);
  await pull();
}
function reset() {
  const items = D && D.items ? D.items : [];
  cardData.clear(); wanted.clear(); verdicts.clear();
  shas = []; usedCount = 0; itemValues = null;
  setData({ ...EMPTY, ...(current ? { tables: current.claim.tables, groups: current.claim.groups, legend: current.claim.legend } : {}), facets: [], choices: [], names: [], records: [], hits: [], items });
  if (current) drawClaim({ ...D, facets: [] }, $("root"), $("groups"), $("legend"));
  $("sort").value = "record";
  sorted();
  showFacets(new Set());
  update();
}
let isPulling = false;
async function pull() {
  if (isPulling || !current) return;
  isPulling = true;
  try {
    for (;;) {
      const mine = current, at = Math.max(0, D.names.length - 1), had = D.names.length;
      const got = await ask("hits", { id: mine.id, from: mine.run < 0 ? 0 : at, choices: mine.run < 0 ? 0 : D.choices.length });
      if (current !== mine) continue;
      if (got.run !== mine.run) {
        const isFirst = mine.run < 0;
        mine.run = got.run;
        if (!isFirst) { reset(); continue; }
        if (got.facets) { setData({ ...D, facets: got.facets }); drawClaim(D, $("root"), $("groups"), $("legend")); }
      }
      if (got.facets && !D.facets.length) setData({ ...D, facets: got.facets });
      const changed = had > got.from && JSON.stringify(D.hits[got.from]) !== JSON.stringify(got.hits[0]);
      for (const [to, from] of [[D.names, got.names], [D.records, got.records], [D.hits, got.hits], [shas, got.shas]]) { to.length = got.from; for (const each of from) to.push(each); }
      for (const choice of got.choices) D.choices.push(choice);
      for (const [i, verdict, note] of got.verdicts) verdicts.set(i, [verdict, note]);
      if (D.names.length !== had || got.choices.length || changed) {
        grow();
        const used = usedKeys();
        if (used.size !== usedCount) { usedCount = used.size; showFacets(used); }
        if (changed) { cardData.delete(got.from); for (const rack of document.querySelectorAll(".rack.made")) if ([...rack.children].some((card) => +card.dataset.i === got.from) && !rack.contains(document.activeElement)) { rack.classList.remove("made"); } }
        update(true);
        if (isTable) showTable();
      }
      if (!got.isMore) return;
    }
  } finally { isPulling = false; }
}
async function pullVerdicts() {
  const mine = current, got = await ask("verdicts", { id: mine.id });
  if (mine !== current) return;
  const before = new Map(verdicts);
  verdicts.clear();
  for (const [i, verdict, note] of got.verdicts) verdicts.set(i, [verdict, note]);
  for (const card of document.querySelectorAll("article")) {
    const i = +card.dataset.i;
    if (JSON.stringify(before.get(i)) !== JSON.stringify(verdicts.get(i)) && !card.contains(document.activeElement)) fill(card);
  }
  if (verdictFilter) update();
  if (isTable) showTable();
}
let searchKey = "";
function showSearches() {
  const found = current && state.searches.find((s) => s.id === current.id);
  choose($("which"), state.searches.length ? state.searches.map((s) => [s.id, `${s.claim}, version ${s.version}`]) : [["", "no search yet"]], current ? current.id : undefined);
  if (!found) {
    if (current) { current = null; reset(); }
    for (const id of ["stop", "on", "again", "drop", "progress", "stale", "search-fault", "changes"]) $(id).hidden = true;
    $("far").textContent = state.searches.length ? "" : "Keep a claim, and search for it.";
    if (state.searches.length && view === "hits") open(state.searches[state.searches.length - 1].id).catch((fault) => showFault(fault.message));
    return;
  }
  const isOn = found.state === "running" || found.state === "waiting";
  $("progress").hidden = !isOn && found.state === "ended";
  $("progress").max = Math.max(1, found.of);
  $("progress").value = found.done;
  $("far").textContent = `${{ waiting: "waiting", running: "searching", stopped: "stopped", ended: "all searched", failed: "stopped" }[found.state]}: ${said(found.done)} of ${plural(found.of, "record")}, ${plural(found.hits, "hit")} in ${plural(found.records, "compound")}`;
  $("stop").hidden = !isOn;
  $("on").hidden = !["stopped", "failed"].includes(found.state);
  $("again").hidden = isOn;
  $("drop").hidden = isOn;
  $("stale").hidden = !found.stale;
  $("search-fault").hidden = !found.fault;
  $("search-fault").textContent = found.fault;
  const key = JSON.stringify([found.id, found.run, found.changes]);
  if (key !== searchKey) { searchKey = key; showChanges(found).catch(() => {}); }
  if (found.run !== current.run || found.records !== D.names.length || isOn || !current.isWhole) pull().then(() => { current && (current.isWhole = found.state === "ended" && found.records === D.names.length && found.run === current.run); }).catch((fault) => showFault(fault.message));
}
async function showChanges(found) {
  $("changes").hidden = !found.changes;
  if (!found.changes) return;
  const { changes } = await ask("search/changes", { id: found.id }), node = $("changes");
  node.querySelector("summary").textContent = `Since the search before: ${["new", "lost", "changed"].map((kind) => `${said(changes[kind].length)} ${kind}`).join(", ")}`;
  node.querySelector("div").replaceChildren(...["new", "lost", "changed"].filter((kind) => changes[kind].length).map((kind) => make("div", {}, make("h3", {}, kind), tableOf(["record", "name"], changes[kind].slice(0, 500)))));
}
on("which", "change", () => open(+$("which").value));
on("stop", "click", async () => { await ask("search/stop", { id: current.id }); await look(); });
on("on", "click", async () => { await ask("search/on", { id: current.id }); await look(); });
on("again", "click", async () => { await ask("search/again", { id: current.id }); await look(); });
on("drop", "click", async () => { await ask("search/drop", { id: current.id }); await look(); });

/* ---- cards ---- */
function held(i) {
  const data = cardData.get(i);
  if (data) return data;
  wanted.add(i);
  fetchCards();
  return null;
}
/* A card brings the graphs of its record's choices. */
function learn(place, card) {
  card.g.forEach((graph, k) => { const choice = D.choices[D.hits[place][2 * k]]; if (choice) Object.assign(choice, graph); });
}
let isFetching = false;
async function fetchCards() {
  if (isFetching) return;
  isFetching = true;
  await pause(0);
  try {
    while (wanted.size && current) {
      // a rack at a time, and of those that were scrolled to last first
      const mine = current, places = [...wanted].slice(-4 * PER).slice(0, PER), { run, cards } = await ask("cards", { id: mine.id, places });
      if (current !== mine || run !== mine.run) break;
      let missing = 0;
      cards.forEach((card, n) => {
        if (!card) { missing++; return; }
        wanted.delete(places[n]);
        learn(places[n], card);
        cardData.set(places[n], card.gone ? { m: { s: "", b: [] }, h: card.h, d: {}, gone: true } : card);
      });
      if (cards.length < places.length) for (const place of places.slice(cards.length)) wanted.delete(place);
      if (cardData.size > 3000) for (const key of [...cardData.keys()].slice(0, 1000)) cardData.delete(key);
      for (const rack of document.querySelectorAll(".rack:not(.made)")) { const box = rack.getBoundingClientRect(); if (box.bottom > -1200 && box.top < innerHeight + 1200) fillRack(rack); }
      if (missing) await pause(missing < places.length ? 10 : 60);
    }
  } catch (fault) { showFault(fault.message); } finally { isFetching = false; }
}
const VERDICTS = ["relevant", "not", "open"];
let lastVerdict = Promise.resolve();
async function judge(i, verdict, note) {
  if (verdict === "open" && !note) verdicts.delete(i); else verdicts.set(i, [verdict, note]);
  const words = { id: current.id, place: i, sha: shas[i], verdict, note };
  // one after the other, since of two on the way the earlier may come last
  lastVerdict = lastVerdict.catch(() => {}).then(() => ask("verdict", words));
  await lastVerdict;
}
cardMore = (card, i) => {
  const [verdict, note] = verdicts.get(i) || ["open", ""], name = D.names[i] || `record ${D.records[i]}`;
  const input = make("input", { value: note, placeholder: "note", "aria-label": `note on ${name}`, maxlength: 10000, autocomplete: "off" });
  const buttons = VERDICTS.map((word) => {
    const button = make("button", { "aria-pressed": String(word === verdict), title: `verdict: ${word} (${word[0]})` }, word);
    button.addEventListener("click", deed(async () => {
      await judge(i, word, input.value);
      buttons.forEach((each, n) => each.setAttribute("aria-pressed", String(VERDICTS[n] === word)));
    }));
    return button;
  });
  input.addEventListener("change", deed(() => judge(i, (verdicts.get(i) || ["open"])[0], input.value)));
  const row = make("div", { class: "verdict", role: "group", "aria-label": "verdict" }, ...buttons, input);
  return card.data.gone ? [make("p", { class: "quiet" }, "This compound was replaced or taken out since it was found."), row] : [row];
};
keeps = (i) => {
  if (!verdictFilter) return true;
  const [verdict, note] = verdicts.get(i) || ["open", ""];
  return verdictFilter === "note" ? Boolean(note) : verdict === verdictFilter;
};
/* The keys of the hits go to nothing that is hidden. */
document.addEventListener("keydown", (event) => { if (view !== "hits" && ["/", "j", "k", "Escape"].includes(event.key)) event.stopImmediatePropagation(); }, true);
on("by-verdict", "change", () => { verdictFilter = $("by-verdict").value; update(); if (isTable) showTable(); });
document.addEventListener("keydown", (event) => {
  if (event.target.matches("input, textarea, select") || event.ctrlKey || event.metaKey || event.altKey) return;
  const word = VERDICTS.find((each) => each[0] === event.key), card = document.activeElement.closest("article");
  if (!word || !card || view !== "hits") return;
  const i = +card.dataset.i;
  deed(async () => { await judge(i, word, (verdicts.get(i) || ["", ""])[1]); fill(card); card.focus(); })();
});

/* ---- order, data, table ---- */
let itemNames = [];
function sorted() {
  choose($("sort"), [["record", "record"], ["name", "name"], ["verdict", "verdict"], ...itemNames.map((item) => ["item " + item, item])]);
  const by = $("sort").value, collator = new Intl.Collator("en", { numeric: true, sensitivity: "base" });
  if (by === "name") compares = (i, j) => collator.compare(D.names[i], D.names[j]) || i - j;
  else if (by === "verdict") { const rank = (i) => VERDICTS.indexOf((verdicts.get(i) || ["open"])[0]); compares = (i, j) => rank(i) - rank(j) || i - j; }
  else if (by.startsWith("item ") && itemValues) { const values = itemValues; compares = (i, j) => (values[i] === "") - (values[j] === "") || collator.compare(values[i] || "", values[j] || "") || i - j; }
  else compares = null;
}
on("sort", "change", async () => {
  const by = $("sort").value;
  itemValues = by.startsWith("item ") ? (await job("values", { id: current.id, item: by.slice(5) })).values : null;
  sorted();
  update();
  if (isTable) showTable();
});
$("data-picks").addEventListener("toggle", deed(async () => {
  if (!$("data-picks").open || !current) return;
  itemNames = (await ask("items", { id: current.id })).items;
  sorted();
  $("data-picks").querySelector("div").replaceChildren(...(itemNames.length ? itemNames.map((item) => {
    const box = make("input", { type: "checkbox" });
    box.checked = D.items.includes(item);
    box.addEventListener("change", () => { D.items = box.checked ? [...D.items, item] : D.items.filter((each) => each !== item); showCards(); if (isTable) showTable(); });
    return make("label", {}, box, " " + item);
  }) : [make("span", { class: "quiet" }, "The compounds have no data items.")]));
}));
const MOST_ROWS = 200;
async function showTable() {
  const sites = new Map();
  for (const choice of D.choices) for (const [f, , parent, name] of choice.p) if (parent < 0) sites.set(name, D.facets[f].u ? 99 : D.facets[f].l[0]);
  const names = [...sites].sort(([a, p], [b, q]) => p - q || a.localeCompare(b, "en", { numeric: true })).map(([name]) => name);
  const rows = shown.slice(0, MOST_ROWS * tablePages), values = [];
  const missing = D.items.length ? rows.filter((i) => !cardData.has(i)) : [];
  for (let at = 0; at < missing.length; at += 100) {
    const places = missing.slice(at, at + 100), { cards } = await ask("cards", { id: current.id, places });
    cards.forEach((card, n) => { if (card && !card.gone) { learn(places[n], card); cardData.set(places[n], card); } });
  }
  for (const i of rows) {
    const at = D.hits[i].findIndex((choice, n) => n % 2 === 0 && fits(choice)), choice = D.choices[D.hits[i][at]], [verdict, note] = verdicts.get(i) || ["open", ""];
    const stands = new Map(choice.p.filter(([, , parent]) => parent < 0).map(([f, v, , name]) => [name, D.facets[f].v[v].n]));
    const data = (cardData.get(i) || { d: {} }).d || {};
    values.push([D.records[i], D.names[i], verdict, note, ...names.map((name) => stands.get(name) || ""), ...D.items.map((item) => data[item] || "")]);
  }
  const more = make("button", { class: "more" }, `+${said(shown.length - rows.length)} more`);
  more.addEventListener("click", () => { tablePages++; showTable(); });
  $("table").replaceChildren(tableOf(["record", "name", "verdict", "note", ...names, ...D.items], values), ...(rows.length < shown.length ? [more] : []));
}
let tablePages = 1;
on("as-table", "click", async () => {
  isTable = !isTable;
  tablePages = 1;
  $("as-table").setAttribute("aria-pressed", String(isTable));
  $("table").hidden = !isTable;
  $("cards").hidden = isTable;
  if (isTable) await showTable();
});
for (const id of ["text", "clear", "facets"]) $(id).addEventListener(id === "text" ? "input" : "click", () => setTimeout(() => { if (isTable) showTable(); }, 150));

/* ---- files to hand on ---- */
const ENDINGS = { csv: "csv", sdf: "sdf", page: "html", json: "json", claim: "rgf" };
for (const button of $("exports").querySelectorAll("button")) button.addEventListener("click", deed(async () => {
  const kind = button.dataset.kind, words = button.textContent, mine = current;
  if (!mine) throw new Fault("Search first.");
  button.disabled = true;
  try {
    const data = await job("export", { id: mine.id, kind, places: shown.length === size ? null : shown }, (told) => { button.textContent = told || words; });
    const ending = kind === "source" ? (mine.claim.isList ? "txt" : "rgf") : ENDINGS[kind];
    const link = make("a", { href: URL.createObjectURL(data), download: `${mine.name.replace(/[^\w .-]+/g, "_")}.${ending}` });
    link.click();
    setTimeout(() => URL.revokeObjectURL(link.href), 60000);
    $("exports").open = false;
  } finally { button.disabled = false; button.textContent = words; }
}));

/* ---- why not, and which claims ---- */
const WRONG_HUE = 0;
/* A drawing in which some atoms are marked, with the bonds between them. */
function marked(picture, atoms, hue, label) {
  if (!picture || !picture.xy) return undrawn();
  const parts = new Map(atoms.map((atom) => [atom, 0])), pairs = [];
  for (let n = 0; n < picture.b.length; n += 3) if (parts.has(picture.b[n]) && parts.has(picture.b[n + 1])) pairs.push([picture.b[n], picture.b[n + 1]]);
  return drawing(picture, { parts, pairs, hue: () => hue, size: 1.5, label });
}
on("why-form", "submit", async () => {
  if (!$("why-claim").value) throw new Fault("Keep a claim first.");
  const [name, version] = JSON.parse($("why-claim").value);
  $("why-told").textContent = "it is asked ...";
  $("why-answer").replaceChildren();
  try {
    const found = await job("why", { name, version, record: $("why-record").value }, (told) => { $("why-told").textContent = told || "it is asked ..."; });
    const isHit = found.kind === "hit";
    const rows = Object.entries(found.data).filter(([, value]) => value !== "").slice(0, 20);
    const root = { ...found.root }, sites = Object.entries(root.g || {}).filter(([, group]) => group === found.label).map(([atom]) => +atom);
    const rootAtoms = found.atom ? [found.atom] : sites;
    const table = make("dl", {});
    for (const [item, value] of rows) table.append(make("dt", {}, item), make("dd", {}, value));
    $("why-answer").replaceChildren(make("div", { class: "answer" },
      make("figure", {}, marked(found.picture, found.places, WRONG_HUE, `drawing of ${found.name || "record " + found.number}`), make("figcaption", {}, `record ${found.number}: ${found.name || "(no name)"}${found.places.length ? "; what doesn't fit is marked" : ""}`)),
      make("figure", {}, marked({ ...root, g: undefined }, isHit ? [] : rootAtoms, WRONG_HUE, "the claim's root"), make("figcaption", {}, `the root of ${name}, version ${version}${!isHit && rootAtoms.length ? "; the demand is marked" : ""}`)),
      make("div", { class: "said" }, make("p", { id: "why-words" }, isHit ? "It is a hit." : `It isn't a hit: ${found.words}.`), table)));
  } finally { $("why-told").textContent = ""; }
});
on("covers-form", "submit", async () => {
  $("covers-told").textContent = "it is asked ...";
  $("covers-answer").replaceChildren();
  try {
    const found = await job("covers", { smiles: $("smiles").value }, (told) => { $("covers-told").textContent = told || "it is asked ..."; });
    const hit = found.rows.find((row) => row.hit);
    $("covers-answer").replaceChildren(make("div", { class: "answer" }, make("figure", {}, marked(found.picture, hit ? hit.map : [], HUES[0], "the compound"), make("figcaption", {}, hit ? `as ${hit.name} covers it` : "the compound")),
      make("div", { class: "said" }, found.rows.length ? tableOf(["claim", "version", "covers it", "by which choice, or why not"], found.rows.map((row) => [row.name, row.version, row.hit ? "yes" : "no", row.words])) : make("p", {}, "No claim is kept yet."))));
  } finally { $("covers-told").textContent = ""; }
});

/* ---- compounds ---- */
async function load(files, more = {}) {
  const how = $("how").value, words = how === "update" ? { how, key: $("key").value, missing: $("missing").checked ? "remove" : "keep" } : { how };
  for (const file of files) {
    if (file.size > 64 * 1024 * 1024) throw new Fault(`${file.name} has more than 64 MiB; pack it by gzip or xz, or send it in parts.`);
    judged(await (await send("load", file, { "X-Markush-Token": TOKEN, "Content-Type": "application/octet-stream", "X-Markush-Words": encodeURIComponent(JSON.stringify({ ...words, ...more, name: file.name })) })).json());
  }
  await look();
}
dropped($("drop-place"), load);
on("load-file", "click", () => $("load-input").click());
on("load-input", "change", async () => { const files = [...$("load-input").files]; await load(files); $("load-input").value = ""; });
on("how", "change", () => { $("update-words").hidden = $("how").value !== "update"; });
const jobNodes = new Map();
function showLoads(before) {
  for (const each of [...state.loads].reverse()) {
    let node = jobNodes.get(each.id);
    if (!node) {
      const list = make("ul", {}), details = make("details", { hidden: "" }, make("summary", {}), list);
      details.addEventListener("toggle", deed(async () => { if (details.open && !list.firstChild) list.append(...(await ask("loads", { id: each.id })).words.map((words) => make("li", {}, words))); }));
      node = make("div", { class: "job" }, make("span", { role: "status" }), details);
      jobNodes.set(each.id, node);
      $("loads").prepend(node);
    }
    const [told, details] = node.children, parts = [];
    if (each.state === "reading") parts.push(each.of ? `${said(each.done)} of ${said(each.of)} lines drawn` : "it is read");
    if (each.state === "waiting" || each.state === "loading") parts.push(`${said(each.done)} of ${plural(each.of, "record")}`);
    if (each.kept || (each.state === "done" && !each.replaced)) parts.push(`${said(each.kept)} loaded`);
    if (each.replaced) parts.push(`${said(each.replaced)} replaced`);
    if (each.how === "update" && each.state === "done") parts.push(`${said(each.same)} the same, ${said(each.missing)} taken out`);
    if (each.fault) parts.push(each.fault);
    told.textContent = `${each.file}: ${parts.join("; ")}`;
    details.hidden = !each.refused;
    details.firstChild.textContent = `${said(each.refused)} refused, in words`;
    if (before && each.state === "done" && !before.loads.some((old) => old.id === each.id && old.state === "done") && view === "compounds") find(foundFrom).catch(() => {});
  }
}
let foundFrom = 0, finds = 0;
async function find(from) {
  foundFrom = Math.max(0, from);
  const mine = ++finds, got = await job("compounds", { from: foundFrom, text: $("find").value });
  if (mine !== finds) return;
  const items = [...new Set(got.rows.flatMap(([, , data]) => Object.keys(data)))].slice(0, 6);
  $("found").querySelector("thead").replaceChildren(make("tr", {}, ...["", "record", "name", ...items, ""].map((word) => make("th", { scope: "col" }, word || make("span", { class: "vis" }, "choose")))));
  $("found").querySelector("tbody").replaceChildren(...got.rows.map(([number, name, data]) => {
    const box = make("input", { type: "checkbox", value: number, "aria-label": `mark record ${number}` });
    const see = make("button", { "aria-label": `look at record ${number}` }, "Look"), put = make("button", { "aria-label": `replace record ${number}` }, "Replace");
    see.addEventListener("click", deed(() => lookAt(number)));
    put.addEventListener("click", () => { $("replace-input").dataset.number = number; $("replace-input").click(); });
    return make("tr", {}, make("td", {}, box), make("td", {}, String(number)), make("td", {}, name || "(no name)"), ...items.map((item) => make("td", {}, data[item] || "")), make("td", {}, see, " ", put));
  }));
  $("found-told").textContent = got.of ? `${said(foundFrom + 1)} to ${said(foundFrom + got.rows.length)} of ${said(got.of)}` : "none";
  $("found-before").disabled = !foundFrom;
  $("found-next").disabled = foundFrom + got.rows.length >= got.of;
}
on("find-form", "submit", () => find(0));
on("found-before", "click", () => find(foundFrom - 50));
on("found-next", "click", () => find(foundFrom + 50));
on("take-out", "click", async () => {
  const numbers = [...$("found").querySelectorAll("input:checked")].map((box) => +box.value);
  if (!numbers.length) throw new Fault("Mark the compounds first.");
  if (!confirm(`Take ${plural(numbers.length, "compound")} out of the library?`)) return;
  await job("remove", { numbers });
  await look();
  await find(foundFrom);
});
on("replace-input", "change", async () => { const files = [...$("replace-input").files]; if (files.length) await load(files, { how: "replace", number: +$("replace-input").dataset.number }); $("replace-input").value = ""; });
async function lookAt(number) {
  const found = await job("compound", { number });
  $("one").replaceChildren(make("div", { class: "answer" }, make("figure", {}, marked(found.picture, [], 0, `drawing of ${found.name || "record " + number}`), make("figcaption", {}, `record ${number}: ${found.name || "(no name)"}`)), make("div", { class: "said" }, make("pre", { tabindex: "0", "aria-label": "the record's text" }, found.text))));
  $("one").scrollIntoView({ block: "nearest" });
}

/* ---- start ---- */
setData({ ...EMPTY });
sorted();
update();
$("claim").open = $("sites").open = matchMedia("(min-width: 980px)").matches;
showLines();
show("claims");
if (TOKEN) lookOn(); else showFault("This page isn't let in: open the link that the server printed at its start.");
