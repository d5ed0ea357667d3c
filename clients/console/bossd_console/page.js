"use strict";
// The page of bossd-console. It listens to one stream: first everything, then what changed. Only what changed is drawn.

const LEVELS = {1: "Manual-Life Safety", 2: "Automatic-Life Safety", 5: "Critical Equipment Control", 8: "Manual Operator"};
const FROM = {lease: "lease", pending: "reversion", default: "default"};
const MARKS = {settled: ["✓", "settled"], pending: ["…", "pending"], failed: ["✕", "failed"]};
const CAUSES = {expired: "its time was over", cancelled: "it was cancelled", died: "its program was lost", fault: "a device refused a value"};
const FILTERS = {
  all: ["All", () => true],
  held: ["Held", (now) => now.from === "lease"],
  overridden: ["Overridden", isOverridden],
  reverting: ["Reverting", (now) => now.from === "pending"],
  pending: ["Device pending", (now) => now.mark === "pending"],
  failed: ["Failed", (now) => now.mark === "failed"],
};
// The lengths of time that the plot of a point offers, the shortest that it shows, and how often its day is asked for, in milliseconds.
const HOUR = 3600000, DAY = 24 * HOUR, SPANS = [["24 h", DAY], ["6 h", 6 * HOUR], ["1 h", HOUR], ["10 min", HOUR / 6]], SHORTEST = 10000, ASK = 60000;
// So many rows of a day's table are shown, the last ones, and so many colours the holders of a point have.
const MOST_ROWS = 200, COLOURS = 6;
// An override is a lease of a manual operator or before it. So many changes of a point are kept for its plot, and notices of a process.
const OPERATOR_PRIORITY = 8, KEPT_CHANGES = 500, KEPT_NOTICES = 256;
// How often what is opened is asked for again, so that the console goes on looking at it, and for how long it is said that the server is
// back, in milliseconds.
const LOOK = 10000, BACK = 60000;

const find = (id) => document.getElementById(id);
const points = new Map();
const groups = new Map();
let about = {}, server = {}, journal = null, schedules = [], processes = [], offset = 0, filter = "all", search = "";
let opened = null, detail = null, notices = [], day = null, seconds = 0, lost = false;

// ---- small things

function make(tag, properties, ...children) {
  const made = document.createElement(tag);
  for (const [key, value] of Object.entries(properties || {})) {
    if (key in made) made[key] = value; else made.setAttribute(key, value);
  }
  made.append(...children.filter((one) => one !== null && one !== undefined));
  return made;
}

function say(node, text) { if (node.textContent !== text) node.textContent = text; }
function serverNow() { return Date.now() + offset; }
// What an event needs to come is no other clock: only one that is wrong by more is set.
function setClock(now) { if (Math.abs(now - serverNow()) > 500) offset = now - Date.now(); }
function level(priority) { return `${priority} ${LEVELS[priority] || "Available"}`; }
function isOverridden(now) { return now.from === "lease" && now.priority <= OPERATOR_PRIORITY; }

function number(point, value) {
  if (point.kind === "analog") return (value / 1000).toLocaleString("en", {useGrouping: false, minimumFractionDigits: 1, maximumFractionDigits: 3});
  return String(value);
}

function shown(point, value) {
  if (value === undefined) return "not known";
  if (point.kind === "binary") return value ? "1 on" : "0 off";
  if (point.kind === "multi") return `${value} of ${point.max}`;
  return number(point, value) + (point.unit ? `\u00a0${point.unit === "percent" ? "%" : point.unit}` : "");
}

function length(milliseconds) {
  const all = Math.max(0, Math.ceil(milliseconds / 1000)), pad = (it) => String(it).padStart(2, "0");
  const days = Math.floor(all / 86400), hours = Math.floor(all / 3600) % 24, minutes = Math.floor(all / 60) % 60;
  if (days) return `${days} d ${pad(hours)}:${pad(minutes)}`;
  return (hours ? `${hours}:${pad(minutes)}` : minutes) + `:${pad(all % 60)}`;
}

function left(until) {
  if (until === undefined) return "";
  const rest = until - serverNow();
  return rest > 0 ? length(rest) : "due";
}

function clock(moment) {
  const at = new Date(Math.round((moment - offset) / 1000) * 1000), today = at.toDateString() === new Date().toDateString();
  return (today ? "" : at.toLocaleDateString("sv") + " ") + at.toLocaleTimeString("sv");
}

// ---- the list

function groupOf(name) { return name.includes(".") ? name.slice(0, name.indexOf(".")) : name; }

function groupNamed(name) {
  if (!groups.has(name)) {
    const node = find("group").content.firstElementChild.cloneNode(true);
    node.querySelector("h2").textContent = name;
    node.querySelector("table").setAttribute("aria-label", name);
    const group = {name, node, body: node.querySelector("tbody"), count: node.querySelector(".count"), points: [], near: false};
    node.group = group;
    groups.set(name, group);
    find("list").append(node);
    nearby.observe(node);
  }
  return groups.get(name);
}

// Time left is counted down where it can be seen.
const nearby = new IntersectionObserver((entries) => {
  for (const {target, isIntersecting} of entries) {
    target.group.near = isIntersecting;
    if (isIntersecting) countDown(target.group);
  }
}, {rootMargin: "200px"});

function countDown(group) {
  for (const point of group.points) if (point.now.until !== undefined) say(point.cells.left, left(point.now.until));
}

function addPoint(told) {
  const node = find("row").content.firstElementChild.cloneNode(true), cells = {};
  for (const cell of node.querySelectorAll("td")) cells[cell.className] = cell.firstElementChild || cell;
  const point = {...told, node, cells, link: node.querySelector("a"), now: {}, history: [], group: groupNamed(groupOf(told.name))};
  point.link.textContent = told.name;
  point.link.href = "#point/" + told.name;
  node.querySelector("small").textContent = told.note;
  point.group.points.push(point);
  point.group.body.append(node);
  points.set(told.name, point);
}

function setPoint(told) {
  const point = points.get(told.name);
  if (!point || told.mark === undefined) return;
  const {cells, node} = point, last = point.history.at(-1);
  point.now = told;
  // Whose it is may be known a look later.
  if (last && last[4] === null && last.slice(1, 4).join() === [told.value, told.from, told.priority].join()) last[4] = told.owner || null;
  else if (!last || last.slice(1).join() !== [told.value, told.from, told.priority, told.owner].join()) {
    point.history.push([serverNow(), told.value, told.from, told.priority || null, told.owner || null]);
    if (point.history.length > KEPT_CHANGES) point.history.shift();
  }
  say(cells.value, shown(point, told.value));
  say(cells.from, FROM[told.from]);
  say(cells.priority, told.priority ? level(told.priority) : "");
  const setBy = told.override ? ` ⚑ ${told.override.who}` : "";
  if (cells.owner.textContent !== (told.owner || "") + setBy) cells.owner.replaceChildren(...(told.owner ? [processLink(told.owner), setBy] : []));
  cells.owner.title = overrideSentence(told).trim();
  say(cells.left, left(told.until));
  const [sign, word] = MARKS[told.mark];
  say(cells.mark, `${sign} ${isHeld(told) ? "still " + shown(point, told.took) : word}`);
  cells.mark.title = told.took === undefined ? "" : deviceSentence(point);
  cells.mark.className = "mark " + (told.mark === "pending" ? "waiting" : told.mark);
  node.className = [told.from, isOverridden(told) && "over", told.mark === "failed" && "trouble", node.classList.contains("opened") && "opened"]
    .filter(Boolean).join(" ");
  sift(point);
}

function processLink(name) { return make("a", {href: "#process/" + name, textContent: name}); }

function sift(point) {
  const text = [point.name, point.note, point.now.owner, point.now.override && point.now.override.who].join(" ").toLowerCase();
  const hides = !(FILTERS[filter][1](point.now) && text.includes(search));
  if (point.node.hidden !== hides) point.node.hidden = hides;
}

function siftAll() {
  for (const point of points.values()) sift(point);
  countAll();
}

function countAll() {
  const counts = Object.fromEntries(Object.keys(FILTERS).map((key) => [key, 0]));
  for (const group of groups.values()) {
    let held = 0, shownHere = 0;
    for (const {now, node} of group.points) {
      for (const [key, [, fits]] of Object.entries(FILTERS)) if (fits(now)) counts[key] += 1;
      if (now.from === "lease") held += 1;
      if (!node.hidden) shownHere += 1;
    }
    group.node.hidden = shownHere === 0;
    const all = group.points.length;
    say(group.count, `${shownHere < all ? `${shownHere} of ` : ""}${all} point${all === 1 ? "" : "s"}${held ? `, ${held} held` : ""}`);
  }
  for (const button of find("filters").children) say(button, `${FILTERS[button.value][0]} ${counts[button.value]}`);
  find("none").hidden = [...groups.values()].some((group) => !group.node.hidden);
}

// ---- how the server stands

function sayHealth() {
  const health = find("health"), banner = find("banner"), up = server.state === "up" && !lost;
  const words = {up: "answers", busy: "no answer", full: "all busy", down: "is down", keyless: "wrong key", stopped: "disk failed", starting: "not asked yet"};
  health.className = "health " + (lost ? "down" : server.state);
  say(health, lost ? "console gone" : words[server.state] || "");
  health.title = seconds ? `the last look took ${seconds} s` : "";
  document.body.classList.toggle("away", !up);
  const foreign = server.foreign || [];
  let text = "", kind = "";
  if (lost) text = "The console does not answer: what stands here is old. It is tried again.";
  else if (!up) {
    text = `${server.sentence} Since ${clock(server.since)}.` + (server.answered ? ` What stands here is of ${clock(server.answered)}.` : "");
    kind = server.state === "busy" || server.state === "full" ? "busy" : "";
  } else if (server.away !== undefined && serverNow() - server.since < BACK) {
    text = `The server is back since ${clock(server.since)}; it was away for ${length(server.away)}.`;
    kind = "back";
  } else if (foreign.length) text = `The server does not have ${foreign.join(", ")}: it was started with another catalogue.`;
  else if (server.clock && server.clock.sentence) text = server.clock.sentence;
  banner.className = kind;
  say(banner, text);
  banner.hidden = text === "";
}

function sayProcesses() {
  say(find("process-count"), String(processes.length));
  const list = find("processes").querySelector("ul");
  list.replaceChildren(...(processes.length ? processes.map((name) => make("li", {}, processLink(name))) : [make("li", {textContent: "none was met yet"})]));
}

// ---- the stream

function listen() {
  const source = new EventSource("api/changes");
  source.addEventListener("all", (event) => {
    const told = JSON.parse(event.data), other = about.digest !== told.digest;
    about = told;
    setClock(told.now);
    say(find("address"), told.address);
    say(find("role"), told.operator ? `Operator: ${told.operator}` : "Looking only");
    if (other || told.points.length !== points.size || told.points.some((one) => !points.has(one.name))) {
      points.clear(); groups.clear();
      find("list").querySelectorAll(".group").forEach((node) => node.remove());
      told.points.forEach(addPoint);
      mark(true);
    }
    told.points.forEach(setPoint);
    server = told.server; journal = told.journal; schedules = told.schedules; processes = told.processes; lost = false;
    countAll(); sayProcesses(); sayHealth(); openHash();
  });
  source.addEventListener("changes", (event) => {
    const told = JSON.parse(event.data);
    setClock(told.now);
    seconds = told.seconds;
    for (const one of told.points || []) setPoint(one);
    if (told.points) countAll();
    if (told.processes) { processes = told.processes; sayProcesses(); }
    if (told.server) { server = told.server; }
    if (told.journal) { journal = told.journal; if (opened && opened.kind === "point") drawPoint(); }
    if (told.schedules) { schedules = told.schedules; if (opened && opened.kind === "process") drawProcess(); }
    if (told.server || lost) { lost = false; sayHealth(); }
    if (opened) drawChanges(told);
  });
  source.onerror = () => {
    lost = true;
    sayHealth();
    // Where it was refused, the browser does not try again by itself.
    if (source.readyState === EventSource.CLOSED) setTimeout(listen, 3000);
  };
}

function drawChanges(told) {
  const {kind, name} = opened;
  if (kind === "point") {
    if (told.details && told.details[name]) detail = told.details[name];
    if ((told.points || []).some((one) => one.name === name) || (told.details && told.details[name])) drawPoint();
  } else {
    const fresh = (told.notices && told.notices[name]) || [], last = notices.length ? notices.at(-1).n : 0;
    notices = [...notices, ...fresh.filter((one) => one.n > last)].slice(-KEPT_NOTICES);
    if (fresh.length || told.points) drawProcess();
  }
}

// ---- what is opened

function openHash() {
  const [kind, name] = location.hash.slice(1).split("/");
  if (kind === "point" && points.has(name)) open_(kind, name);
  else if (kind === "process" && name) open_(kind, name);
  else close_();
}

function open_(kind, name) {
  const same = opened && opened.kind === kind && opened.name === name;
  if (!same) {
    mark(false);
    opened = {kind, name};
    detail = null; notices = []; day = null;
    mark(true);
    find("pane").hidden = false;
    document.querySelector(".columns").classList.add("open");
    find("pane").replaceChildren();
    kind === "point" ? drawPoint() : drawProcess();
    find("pane").scrollTop = 0;
    find("pane").focus({preventScroll: true});
  }
  look();
}

function close_() {
  if (!opened) return;
  const {kind, name} = opened;
  mark(false);
  opened = null;
  find("pane").hidden = true;
  document.querySelector(".columns").classList.remove("open");
  if (kind === "point" && points.has(name)) points.get(name).link.focus();
}

function mark(on) {
  if (opened && opened.kind === "point" && points.has(opened.name)) points.get(opened.name).node.classList.toggle("opened", on);
}

async function look() {
  if (!opened) return;
  const {kind, name} = opened, here = () => opened && opened.kind === kind && opened.name === name;
  try {
    const answer = await fetch(kind === "point" ? `api/points/${name}` : `api/processes/${encodeURIComponent(name)}/notices`);
    const told = await answer.json();
    if (!here()) return;
    if (kind === "point" && answer.ok) { detail = told; drawPoint(); askDay(); }
    if (kind === "process") { notices = told.list || []; opened.why = told.sentence; drawProcess(); }
  } catch { /* The stream says that the console is gone. */ }
}

function paneTop(title, under) {
  return make("div", {className: "top"}, make("div", {}, make("h2", {textContent: title}), make("p", {className: "soft", textContent: under})),
    make("button", {type: "button", textContent: "Close", id: "close", onclick: () => { location.hash = ""; }}));
}

// Puts new contents into the pane; a button that had the focus has it again.
function fill(...children) {
  const pane = find("pane"), focused = pane.contains(document.activeElement) ? document.activeElement.id : "";
  const top = pane.scrollTop;
  pane.replaceChildren(...children.filter(Boolean));
  pane.scrollTop = top;
  if (focused) (focused === "pane" ? pane : find(focused) || pane).focus({preventScroll: true});
}

function whose(now) {
  if (now.from === "default") return "Nobody holds it: this is its default.";
  const what = now.from === "lease" ? "A lease" : "A reversion";
  return `${what} of ${now.owner || "a process that is not known"}, transaction ${now.txn}, at priority ${level(now.priority)}.${overrideSentence(now)}`;
}

// Who set an override that stands, so that one that was forgotten is found.
function overrideSentence(now) {
  if (!now.override) return "";
  const {who, at, until, note} = now.override;
  return ` Set by ${who} at ${clock(at)}; it stands until ${until === null ? "somebody releases it" : clock(until)}${note ? ": " + note : ""}.`;
}

function range(point) {
  if (point.kind === "analog") return `${number(point, point.min)} to ${shown(point, point.max)}`;
  return point.kind === "binary" ? "0 or 1" : `1 to ${point.max}`;
}

function times(point) {
  return [["on", point.min_on], ["off", point.min_off]].filter(([, least]) => least).map(([word, least]) => `${word} for ${length(least)} at least`).join(", ");
}

// When the device follows, where a minimum time keeps it back.
function follows(one) {
  if (!one.device) return "";
  const when = {then: () => `not before ${clock(one.device_at)}`, by: () => `at ${clock(one.device_at)} at the latest`, not: () => "stays as it is", perhaps: () => "perhaps stays as it is"}[one.device]();
  return `; its device ${when}, by its minimum time`;
}

// Whether a minimum time keeps the device at the value that it took last.
function isHeld(now) { return now.held_until !== undefined && now.held_until > serverNow(); }

// How far the device has come, in words.
function deviceSentence(point) {
  const {now} = point, [sign, word] = MARKS[now.mark] || ["", "not known"];
  if (isHeld(now)) return `${sign} device ${word}: still ${shown(point, now.took)} since ${clock(now.since)}, until ${clock(now.held_until)} at the earliest, by its minimum time`;
  const took = now.took === undefined ? "" : `; it took ${shown(point, now.took)} last, at ${clock(now.since)}`;
  if (now.mark === "failed") return `${sign} device ${word}: it refused the value, and is tried again${took}`;
  return now.waiting ? `${sign} device ${word}, no answer since ${clock(now.waiting)}${took}` : `${sign} device ${word}`;
}

function drawPoint() {
  const point = points.get(opened.name), {now} = point;
  const slots = (detail && detail.slots) || [], coming = (detail && detail.next) || [];
  const own = slots.filter((slot) => slot.kind === "lease" && slot.owner === about.operator && about.operator);
  fill(
    paneTop(point.name, [point.note, point.kind, range(point), `default ${shown(point, point.default)}`, `driver ${point.driver}`, times(point)].filter(Boolean).join(", ")),
    make("p", {className: "big", textContent: shown(point, now.value)}),
    make("p", {id: "whose"}, whose(now), " ", now.until !== undefined ? make("span", {id: "rest", className: "value"}) : null),
    make("p", {id: "device", className: now.mark === "pending" ? "waiting" : now.mark || "", textContent: deviceSentence(point)}),
    about.operator ? make("div", {className: "buttons"},
      make("button", {type: "button", id: "take", className: "first", textContent: "Take…", onclick: () => askTake(point)}),
      ...own.flatMap((slot) => [
        make("button", {type: "button", id: `prolong-${slot.txn}`, textContent: `Prolong${own.length > 1 ? " " + slot.priority : ""}…`, onclick: () => askProlong(point, slot)}),
        make("button", {type: "button", id: `release-${slot.txn}`, textContent: `Release${own.length > 1 ? " " + slot.priority : ""}…`, onclick: () => askRelease(point, slot)}),
      ])) : null,
    make("h3", {textContent: "What comes next"}),
    renewedNote(now),
    comingList(point, coming, now),
    knownNote(),
    ...scheduleParts(point),
    dayPart(point),
    make("h3", {textContent: "Slots"}),
    slotTable(point, slots, now),
  );
  countOpened();
}

function comingList(point, coming, now) {
  if (!coming.length) {
    return make("p", {className: "soft", textContent: now.from === "default" ? "Nothing: it has its default until somebody takes it." : "Not known yet."});
  }
  return make("ol", {className: "coming"}, ...coming.map((one) => make("li", {textContent: comingSentence(point, one)})));
}

// A schedule renews its leases, so their ends are none.
function renewedNote(now) {
  const by = ((detail && detail.schedules) || []).find((one) => one.state === "held" && one.process === now.owner && one.priority === now.priority);
  return by ? make("p", {id: "renewed", className: "soft", textContent: `Its lease is renewed by the schedule “${by.programme}”, as below. Only where ${by.process} ends:`}) : null;
}

// What comes next of leases that others took stands in the server's journal alone.
function knownNote() {
  if (journal && !journal.sentence) return null;
  const text = journal ? `What comes next is known for leases taken from this page alone, since the journal is not followed: ${journal.sentence}`
    : "What comes next is known for leases taken from this page; start the console with --journal to see all.";
  return make("p", {id: "known", className: journal ? "note" : "soft", textContent: text});
}

function comingSentence(point, one) {
  const what = one.from === "default" ? "its default" : `${FROM[one.from]} at priority ${one.priority}`;
  const doubt = one.sure ? "" : one.from === "pending" ? "; its steps are not known" : ", unless a reversion comes first that is not known";
  return `at ${clock(one.at)}: ${shown(point, one.value)}, ${what}${doubt}${follows(one)}`;
}

function slotTable(point, slots, now) {
  const taken = new Map(slots.map((slot) => [slot.priority, slot]));
  const head = ["Priority", "Value", "Owner", "Left"].map((text) => make("th", {scope: "col", textContent: text}));
  const rows = Array.from({length: 16}).flatMap((_, place) => {
    const priority = place + 1, slot = taken.get(priority), force = slot && now.priority === priority && now.txn === slot.txn;
    const title = priority === 6 ? "6 Minimum On/Off" : level(priority);
    if (!slot) return [make("tr", {className: "soft"}, make("th", {scope: "row", textContent: title}), make("td", {textContent: "–"}), make("td"), make("td"))];
    const row = make("tr", {className: force ? "force" : ""}, make("th", {scope: "row"}, title, force ? make("span", {textContent: " ▶ in force"}) : null),
      make("td", {textContent: shown(point, slot.value)}),
      make("td", {}, slot.owner ? processLink(slot.owner) : ""), make("td", {className: "left", "data-until": String(slot.until)}));
    return [row, make("tr", {className: force ? "then force" : "then"}, make("td", {colSpan: 4}, ...stepsOf(point, slot)))];
  });
  return make("table", {className: "slots"}, make("thead", {}, make("tr", {}, ...head)), make("tbody", {}, ...rows));
}

// What comes after what stands in a slot, whatever stands in the others.
function stepsOf(point, slot) {
  const {steps} = slot, lease = slot.kind === "lease";
  if (!steps) return [(lease ? "lease" : "reversion") + "; not known what follows"];
  if (!steps.length) return [lease ? "lease, no way back" : "reversion, its last step"];
  return [lease ? "lease, then:" : `reversion, this step until ${clock(steps[0].at)}, then:`, make("ol", {className: "steps"}, ...steps.map((step) => make("li", {textContent: `${shown(point, step.value)} for ${length(step.hold)}, from ${clock(step.at)}`})))];
}

function countOpened() {
  if (!opened || opened.kind !== "point") return;
  const rest = find("rest"), {now} = points.get(opened.name);
  if (now.held_until !== undefined) say(find("device"), deviceSentence(points.get(opened.name)));
  if (rest && now.until !== undefined) say(rest, now.until > serverNow() ? `${length(now.until - serverNow())} left, until ${clock(now.until)}.` : "Its time is over.");
  for (const cell of find("pane").querySelectorAll("td[data-until]")) say(cell, left(Number(cell.dataset.until)));
}

function drawing(tag, attributes, text) {
  const made = document.createElementNS("http://www.w3.org/2000/svg", tag);
  for (const [key, value] of Object.entries(attributes)) made.setAttribute(key, value);
  if (text !== undefined) made.textContent = text;
  return made;
}

// ---- what schedules want

const STATES = {
  held: (one) => `${one.process} holds it now, at priority ${level(one.priority)}`,
  other: (one) => `${one.by || "another process"} has its slot${one.since ? " since " + clock(one.since) : ""}, so it is left alone until something else is wanted`,
  yielded: (one) => `it was left to ${one.by || "another process"}${one.since ? " at " + clock(one.since) : ""}, until something else is wanted`,
  refused: () => "the server refused it",
  unset: (one) => `${one.process} does not hold it now`,
  free: () => "nothing is wanted now",
  unknown: () => "not known yet whether it holds it",
};

// What each schedule wants of a point in the hours to come, and whether its process holds it.
function scheduleParts(point) {
  const told = (detail && detail.schedules) || [], faults = schedules.filter((one) => one.fault);
  const now = serverNow();
  return [
    ...told.flatMap((one) => [
      make("h3", {textContent: `By the schedule “${one.programme}”`}),
      make("p", {className: "schedule-state " + ({held: "settled", free: "soft", unknown: "soft"}[one.state] || "waiting")}, scheduleSentence(point, one)),
      one.old ? make("p", {className: "failed", textContent: `Its file is old: ${one.process} may not run. What stands here may be so no more.`}) : null,
      scheduleTable(point, one, now),
    ]),
    ...faults.map((one) => make("p", {className: "note schedule-fault", textContent: `What a schedule wants is not known, ${one.path}: ${one.fault}`})),
  ].filter(Boolean);
}

// Where a lesser number decides, what is held below it is not seen at the point.
function scheduleSentence(point, one) {
  const {now} = point, above = one.state === "held" && now.from === "lease" && now.priority < one.priority;
  const over = above ? `; ${now.owner || "another process"} decides at priority ${level(now.priority)}${now.until !== undefined ? " until " + clock(now.until) : ""}` : "";
  return `${STATES[one.state](one)}${over}.`;
}

function scheduleTable(point, one, now) {
  const head = ["From", "Until", "Wanted", "Why"].map((text) => make("th", {scope: "col", textContent: text}));
  if (!one.spans.length) return make("p", {className: "soft", textContent: "It wants nothing in the next 24 hours."});
  const rows = one.spans.map(([start, end, value, why]) => make("tr", {className: start <= now && now < end ? "force" : ""}, make("td", {textContent: start <= now ? "now" : clock(start)}),
    make("td", {textContent: clock(end)}), make("td", {className: "value", textContent: shown(point, value)}), make("td", {textContent: why})));
  return make("table", {className: "schedule", "aria-label": `What ${one.process} wants in the next 24 hours`}, make("thead", {}, make("tr", {}, ...head)), make("tbody", {}, ...rows),
    one.more ? make("tfoot", {}, make("tr", {}, make("td", {colSpan: 4, textContent: "and more"}))) : null);
}

// What the file of a schedule says of its process.
function scheduleOf(name) {
  return schedules.filter((one) => one.process === name).flatMap((one) => [
    make("h3", {textContent: "Its schedule"}),
    make("p", {textContent: `${one.programmes.length} programme${one.programmes.length === 1 ? "" : "s"} over ${one.points} point${one.points === 1 ? "" : "s"}, from ${one.file}, read ${clock(one.reloaded)}, by the time of ${one.zone}. What it wants changes next ${clock(one.until)}.`}),
    one.old ? make("p", {className: "failed", textContent: `Its file was written ${clock(one.written)}, and not at ${clock(one.until)}: the process may not run.`}) : null,
    one.sentence ? make("p", {className: "failed", textContent: `Its last reload was refused, and the file before is in force: ${one.sentence}`}) : null,
    make("ul", {}, ...one.programmes.slice(0, 100).map(({name: programme, priority}) => make("li", {textContent: `${programme}, at priority ${priority}`})),
      ...one.yielded.slice(0, 100).map((slot) => make("li", {className: "waiting", textContent: `${slot.point} at priority ${slot.priority} is left to ${slot.by || "another process"} since ${clock(slot.since)}`})),
      ...one.refused.slice(0, 100).map((slot) => make("li", {className: "failed", textContent: `${slot.point} at priority ${slot.priority} was refused by the server`}))),
  ].filter(Boolean));
}

// ---- the day of a point: a plot to zoom, and the same as a table

// What is shown: `span` milliseconds up to `end`, which is null for now.
class Day {
  constructor(point) {
    this.point = point;
    this.span = DAY; this.end = null; this.told = null; this.asked = 0; this.due = false; this.stale = true;
    this.title = make("h3");
    this.note = make("p", {className: "note", id: "day-note", hidden: true});
    this.svg = drawing("svg", {viewBox: "0 0 400 190", id: "day-plot", role: "img", tabindex: "0"});
    this.legend = make("ul", {className: "legend"});
    this.under = make("p", {className: "soft", id: "day-under"});
    this.recent = make("ul", {className: "changes"});
    this.rows = make("tbody");
    this.more = make("p", {className: "soft", hidden: true});
    this.table = make("details", {id: "day-table", ontoggle: () => this.draw()}, make("summary", {textContent: "As a table"}), make("table", {"aria-label": "The changes, the last first"}, make("thead", {}, make("tr", {},
      ...["From", "Value", "By", "Priority", "Owner"].map((text) => make("th", {scope: "col", textContent: text})))), this.rows), this.more);
    const button = (id, text, label, does) => make("button", {type: "button", id, textContent: text, "aria-label": label, onclick: () => { does(); this.draw(); }});
    this.spans = SPANS.map(([text, span], place) => button(`day-span-${place}`, text, `The last ${text}`, () => { this.span = span; this.end = null; }));
    this.buttons = make("div", {className: "buttons zoom", role: "group", "aria-label": "What the plot shows"}, ...this.spans, button("day-in", "+", "Nearer", () => this.zoom(0.5)),
      button("day-out", "−", "Farther", () => this.zoom(2)), button("day-back", "◂", "Earlier", () => this.move(-0.5)), button("day-on", "▸", "Later", () => this.move(0.5)));
    this.node = make("section", {className: "day"}, this.title, this.note, this.buttons, this.svg, this.under, this.legend, this.recent, this.table);
    this.svg.addEventListener("wheel", (event) => { event.preventDefault(); this.zoom(event.deltaY > 0 ? 1.25 : 0.8, this.share(event)); this.draw(); }, {passive: false});
    this.svg.addEventListener("pointerdown", (event) => this.drag(event));
    this.svg.addEventListener("keydown", (event) => this.key(event));
  }

  // The changes: those of the journal, or else those that this page saw.
  changes() { return this.told && this.told.changes ? this.told.changes : this.point.history; }
  first() { return this.told && this.told.changes ? this.told.since : this.point.history.length ? this.point.history[0][0] : serverNow(); }
  last() { return this.end === null ? serverNow() : this.end; }

  // Zooms about a share of what is shown, its end where none is given.
  zoom(factor, share = 1) {
    const at = this.last() - this.span * (1 - share);
    this.span = Math.min(DAY, Math.max(SHORTEST, this.span * factor));
    this.until(at + this.span * (1 - share));
  }

  move(share) { this.until(this.last() + this.span * share); }

  // What is shown ends there, but neither behind now nor before there is anything.
  until(end) {
    const now = serverNow(), least = Math.min(now, this.first() + this.span);
    this.end = end >= now ? null : Math.max(end, least);
  }

  share(event) {
    const box = this.svg.getBoundingClientRect();
    return Math.min(1, Math.max(0, ((event.clientX - box.left) / box.width * 400 - EDGE) / (WIDE - EDGE - 8)));
  }

  drag(event) {
    const from = event.clientX, end = this.last(), width = this.svg.getBoundingClientRect().width * (WIDE - EDGE - 8) / WIDE;
    const move = (next) => { this.until(end - (next.clientX - from) / width * this.span); this.draw(); };
    const up = () => { removeEventListener("pointermove", move); removeEventListener("pointerup", up); removeEventListener("pointercancel", up); };
    addEventListener("pointermove", move); addEventListener("pointerup", up); addEventListener("pointercancel", up);
  }

  key(event) {
    const does = {"+": () => this.zoom(0.5), "-": () => this.zoom(2), ArrowLeft: () => this.move(-0.25), ArrowRight: () => this.move(0.25), Home: () => this.until(0), End: () => this.until(Infinity)}[event.key];
    if (!does || event.ctrlKey || event.metaKey || event.altKey) return;
    event.preventDefault();
    does(); this.draw();
  }

  draw() {
    const {point} = this, to = this.last(), from = to - this.span, changes = this.changes(), has = this.told && this.told.changes;
    say(this.title, has ? "The last 24 hours" : `Value since ${clock(this.first())}`);
    say(this.note, has || !this.told ? "" : `A day's history is not known, only what this page saw: ${this.told.sentence}.`);
    this.note.hidden = !this.note.textContent;
    for (const [place, [, span]] of SPANS.entries()) this.spans[place].setAttribute("aria-pressed", String(this.end === null && Math.abs(this.span - span) < 1));
    const parts = partsOf(changes, from, to), owners = [...new Set(changes.map(holderOf).filter(Boolean))];
    this.svg.replaceChildren(...plotOf(point, parts, from, to, this.first(), owners));
    const values = parts.map(([, , value]) => value);
    const known = values.length ? `${parts.length - 1} change${parts.length === 2 ? "" : "s"}, between ${shown(point, Math.min(...values))} and ${shown(point, Math.max(...values))}` : "nothing is known";
    this.svg.setAttribute("aria-label", `From ${clock(from)} to ${clock(to)}: ${known}. The table below has them all.`);
    say(this.under, `${clock(from)} to ${this.end === null ? "now" : clock(to)}: ${known}.${has && this.first() > to - this.span + 1000 && this.first() > serverNow() - DAY + 1000 ? ` Known since ${clock(this.first())}.` : ""}`);
    this.legend.replaceChildren(...[...new Set(parts.map((part) => part[3]).filter(Boolean))].map((owner) => make("li", {className: "holder-" + owners.indexOf(owner) % COLOURS}, owner)),
      ...(parts.some((part) => part[4] === "pending") ? [make("li", {className: "reverting", textContent: "pale: a reversion"})] : []));
    this.recent.replaceChildren(...changes.slice(-6).reverse().map(([at, value]) => make("li", {textContent: `${clock(at)}: ${shown(point, value)}`})));
    if (this.table.open) this.drawTable(changes);
  }

  drawTable(changes) {
    const rows = changes.slice(-MOST_ROWS).reverse();
    this.rows.replaceChildren(...rows.map(([at, value, basis, priority, owner]) => make("tr", {}, make("td", {textContent: clock(at)}), make("td", {className: "value", textContent: shown(this.point, value)}),
      make("td", {textContent: FROM[basis]}), make("td", {textContent: priority ? String(priority) : ""}), make("td", {textContent: owner || ""}))));
    say(this.more, `and ${changes.length - rows.length} before`);
    this.more.hidden = changes.length <= rows.length;
  }
}

const WIDE = 400, EDGE = 58, TOP = 12, FLOOR = 140, BAND = 150, BAND_HIGH = 14;

function holderOf([, , basis, , owner]) { return basis === "default" ? null : owner || "not known"; }

// What stood in a stretch of time: from when to when, which value, who held it, and by what.
function partsOf(changes, from, to) {
  const parts = [];
  for (const [place, change] of changes.entries()) {
    const start = Math.max(from, change[0]), end = Math.min(to, place + 1 < changes.length ? changes[place + 1][0] : to);
    if (end > start || (end === start && place + 1 === changes.length && start <= to)) parts.push([start, end, change[1], holderOf(change), change[2]]);
  }
  return parts;
}

// Moments that stand under a plot: whole steps of the wall clock.
function ticks(from, to) {
  const step = [1, 2, 5, 10, 30, 60, 120, 300, 600, 1800, 3600, 7200, 14400, 21600].map((one) => one * 1000).find((one) => (to - from) / one <= 5) || DAY;
  const shift = new Date(to).getTimezoneOffset() * 60000 + offset, found = [];
  for (let at = Math.ceil((from - shift) / step) * step + shift; at <= to; at += step) found.push(at);
  return found.map((at) => [at, new Date(at - offset).toLocaleTimeString("sv", {hour: "2-digit", minute: "2-digit", ...(step < 60000 ? {second: "2-digit"} : {})})]);
}

function plotOf(point, parts, from, to, first, owners) {
  const right = WIDE - 8, x = (at) => EDGE + (at - from) / (to - from) * (right - EDGE), values = parts.map(([, , value]) => value);
  const drawn = ticks(from, to).flatMap(([at, text]) => [drawing("line", {x1: x(at).toFixed(1), x2: x(at).toFixed(1), y1: TOP, y2: BAND + BAND_HIGH, class: "grid"}),
    drawing("text", {x: Math.min(right - 14, Math.max(EDGE + 14, x(at))).toFixed(1), y: 184, "text-anchor": "middle"}, text)]);
  if (!values.length) return drawn;
  let least = Math.min(...values), most = Math.max(...values);
  const marked = [...new Set([least, most])];
  if (least === most) { least -= point.kind === "analog" ? 1000 : 1; most += point.kind === "analog" ? 1000 : 1; }
  const y = (value) => FLOOR - 4 - (value - least) / (most - least) * (FLOOR - TOP - 10);
  for (const value of marked) {
    drawn.push(drawing("line", {x1: EDGE, x2: right, y1: y(value).toFixed(1), y2: y(value).toFixed(1)}), drawing("text", {x: EDGE - 6, y: (y(value) + 4).toFixed(1), "text-anchor": "end"}, number(point, value)));
  }
  if (first > from) drawn.push(drawing("rect", {x: EDGE, y: TOP, width: Math.max(0, x(Math.min(first, to)) - EDGE).toFixed(1), height: BAND + BAND_HIGH - TOP, class: "unknown"}));
  drawn.push(drawing("path", {d: parts.map(([start, end, value], place) => `${place ? "V" + y(value).toFixed(1) : `M${x(start).toFixed(1)} ${y(value).toFixed(1)}`}H${x(end).toFixed(1)}`).join("")}));
  drawn.push(drawing("text", {x: EDGE - 6, y: BAND + 11, "text-anchor": "end"}, "held by"));
  for (const [start, end, value, owner, basis] of parts) {
    if (!owner) continue;
    const bar = drawing("rect", {x: x(start).toFixed(1), y: BAND, width: Math.max(1, x(end) - x(start)).toFixed(1), height: BAND_HIGH, class: `holder-${owners.indexOf(owner) % COLOURS} ${basis}`});
    bar.append(drawing("title", {}, `${owner}, ${FROM[basis]}, ${shown(point, value)}, ${clock(start)} to ${clock(end)}`));
    drawn.push(bar);
  }
  return drawn;
}

// The part of the pane, which stays as it is while all around it is drawn anew.
function dayPart(point) {
  if (!day || day.point !== point) day = new Day(point);
  const last = point.history.length ? point.history.at(-1)[0] : 0;
  if (day.seen !== last) { day.seen = last; day.stale = true; }
  day.draw();
  askDay();
  return day.node;
}

// Asks for the day where something changed since, and each minute; one question at a time.
async function askDay() {
  const mine = day;
  if (!mine || mine.due || !(mine.stale || Date.now() - mine.asked > ASK)) return;
  mine.due = true; mine.stale = false; mine.asked = Date.now();
  try {
    // The journal is read just after the look that saw the change.
    await new Promise((later) => setTimeout(later, mine.told ? 300 : 0));
    const answer = await fetch(`api/points/${mine.point.name}/history`);
    if (answer.ok) {
      const told = await answer.json();
      // Of what is known for a few minutes alone, no day is shown at first.
      const known = told.changes ? told.until - told.since : serverNow() - mine.first();
      if (!mine.told && mine.span === DAY) mine.span = SPANS.map(([, span]) => span).filter((span) => span >= known).at(-1) || DAY;
      mine.told = told;
    }
  } catch { mine.stale = true; }
  mine.due = false;
  if (day === mine) mine.draw();
}

function drawProcess() {
  const {name} = opened, holds = [...points.values()].filter(({now}) => now.owner === name && now.from !== "default");
  fill(
    paneTop(name, "control process"),
    make("h3", {textContent: `Decides ${holds.length} point${holds.length === 1 ? "" : "s"}`}),
    make("ul", {}, ...holds.slice(0, 100).map((point) => make("li", {}, make("a", {href: "#point/" + point.name, textContent: point.name}), ` ${shown(point, point.now.value)}, ${FROM[point.now.from]} at priority ${point.now.priority}`))),
    ...scheduleOf(name),
    make("h3", {textContent: "Notices, the last first"}),
    make("ul", {className: "notices"}, ...(notices.length ? [...notices].reverse().map((one) => make("li", {className: one.kind, textContent: noticeSentence(one)})) : [make("li", {textContent: opened.why || "none"})])),
  );
}

function noticeSentence(one) {
  const cause = one.cause === "superseded" ? `transaction ${one.by} took its slot` : CAUSES[one.cause];
  const what = {
    fault: `the device of ${one.point} refused the value`, ended: `the lease on ${one.point} ended: ${cause}`, reverted: `the reversion of ${one.point} is over`,
    cut: `transaction ${one.by} cut the reversion of ${one.point} short`, done: "done",
  }[one.kind];
  return `${clock(one.at)} transaction ${one.txn}: ${what}`;
}

// ---- changes, each asked once

let asked = null;

function token() { try { return sessionStorage.getItem("token") || ""; } catch { return ""; } }
function keepToken(text) { try { sessionStorage.setItem("token", text); } catch { /* It is asked for each time. */ } }
function newId() { return "c-" + [...crypto.getRandomValues(new Uint8Array(12))].map((byte) => byte.toString(16).padStart(2, "0")).join(""); }

function field(name, text, input) {
  input.name = name;
  input.addEventListener("input", () => asked.changed());
  return make("label", {}, text, input);
}

function pick(options, value) { return make("select", {}, ...options.map(([key, text]) => make("option", {value: key, textContent: text, selected: key === String(value)}))); }

function valueInput(point, value) {
  if (point.kind === "binary") return pick([["0", "0 off"], ["1", "1 on"]], value);
  if (point.kind === "multi") return pick(Array.from({length: point.max}, (_, place) => [String(place + 1), `${place + 1} of ${point.max}`]), value);
  return make("input", {type: "number", step: "0.001", min: String(point.min / 1000), max: String(point.max / 1000), value: number(point, value), required: true});
}

function valueOf(point, input) { return point.kind === "analog" ? Math.round(Number(input.value) * 1000) : Number(input.value); }
function minutes(value) { return make("input", {type: "number", min: "0.01", max: "10080", step: "any", value: String(value), required: true}); }
function milliseconds(input) { return Math.round(Number(input.value) * 60000); }

function show(dialog) {
  asked = {id: newId(), busy: false, ...dialog};
  find("ask-title").textContent = asked.title;
  find("ask-fields").replaceChildren(...asked.fields);
  find("ask-next").replaceChildren();
  find("ask-note").hidden = true;
  sayAsked("");
  const yes = find("ask").querySelector("[value=yes]");
  yes.textContent = asked.yes;
  yes.disabled = false;
  find("ask-token").hidden = token() !== "";
  find("ask-token").querySelector("input").value = "";
  find("ask").showModal();
  const first = find("ask-fields").querySelector("input, select") || yes;
  first.focus();
  if (first.select) first.select();
  asked.changed();
}

function askTake(point) {
  const value = valueInput(point, point.now.value), hold = minutes(30), steps = make("input", {type: "number", min: "0", max: "8", step: "1", value: "0"}), each_ = minutes(5);
  const priority = pick(Array.from({length: 16}, (_, place) => place + 1).filter((it) => it !== 6).map((it) => [String(it), level(it)]), OPERATOR_PRIORITY);
  const way = make("fieldset", {}, make("legend", {textContent: "The way back"}));
  const stands = about.stands ? make("input", {type: "checkbox"}) : null;
  let inputs = [];
  const later = debounced(() => preview());
  way.append(field("steps", "Steps", steps), field("each", "Minutes each", each_));
  // Even steps from the value to the default; each may be set otherwise.
  const suggest = () => {
    const count = Math.min(8, Math.max(0, Math.floor(Number(steps.value)))), start = valueOf(point, value);
    inputs.forEach(({label}) => label.remove());
    inputs = Array.from({length: count}, (_, place) => {
      const even = point.kind === "analog" ? Math.round((start + (point.default - start) * (place + 1) / (count + 1)) / 100) * 100 : point.default;
      const input = valueInput(point, Math.min(point.max, Math.max(point.min, even))), label = make("label", {}, `Step ${place + 1}`, input);
      input.addEventListener("input", later);
      return {input, label};
    });
    way.append(...inputs.map(({label}) => label));
  };
  show({
    do: "take", point, title: `Take ${point.name}`, yes: "Take it",
    fields: [field("value", `Value (${range(point)})`, value), field("priority", "Priority", priority), field("minutes", "Minutes", hold), stands ? field("stands", "Until somebody releases it", stands) : make("span"), way],
    body: () => ({value: valueOf(point, value), priority: Number(priority.value), length: milliseconds(hold), ...(stands && stands.checked ? {stands: true} : {}), revert: inputs.map(({input}) => [valueOf(point, input), milliseconds(each_)])}),
    changed: () => { suggest(); later(); },
  });
}

function askProlong(point, slot) {
  const hold = minutes(30);
  show({
    do: "prolong", point, title: `Prolong ${point.name}`, yes: "Prolong it", fields: [field("minutes", "For at least so many minutes from now", hold)],
    body: () => ({txn: slot.txn, length: milliseconds(hold)}), changed: debounced(() => preview()),
  });
}

function askRelease(point, slot) {
  show({do: "release", point, title: `Release ${point.name}`, yes: "Release it", fields: [], body: () => ({txn: slot.txn}), changed: () => preview()});
}

function debounced(call) {
  let timer = 0;
  return () => { clearTimeout(timer); timer = setTimeout(call, 200); };
}

function post(path, body, more) {
  return fetch(path, {method: "POST", headers: {"Content-Type": "application/json", ...more}, body: JSON.stringify(body)});
}

async function preview() {
  const mine = asked;
  if (!mine) return;
  const {point} = mine;
  say(find("ask-now"), `It has ${shown(point, point.now.value)}. ${whose(point.now)}`);
  try {
    const answer = await post("api/preview", {do: mine.do, id: mine.id, point: point.name, ...mine.body()}), told = await answer.json();
    if (asked !== mine) return;
    if (!answer.ok) { find("ask-next").replaceChildren(); sayAsked(told.sentence); return; }
    if (!mine.busy && !mine.refused) sayAsked("");
    const [first, ...rest] = told.next, what = first.from === "default" ? "its default" : `${FROM[first.from]} at priority ${level(first.priority)}`;
    find("ask-next").replaceChildren(make("li", {textContent: `at once: ${shown(point, first.value)}, ${what}${follows(first)}`}), ...rest.map((one) => make("li", {textContent: comingSentence(point, one)})));
    const loses = mine.do === "take" && first.txn !== undefined && first.txn !== 0;
    find("ask-note").hidden = !loses;
    if (loses) say(find("ask-note"), `A lease at priority ${first.priority} stays in force before yours.`);
  } catch { if (asked === mine) sayAsked("The console does not answer."); }
}

// `kind` is "busy" or "denied", or empty for what went wrong.
function sayAsked(text, kind = "") {
  const said = find("ask-said");
  said.className = kind;
  say(said, text);
}

// Asks the change, and asks it again under its id where no answer comes, until one does or the person leaves it.
async function ask() {
  const mine = asked, yes = find("ask").querySelector("[value=yes]"), given = find("ask-token").querySelector("input").value.trim();
  if (mine.busy) return;
  if (given) keepToken(given);
  mine.busy = true; mine.refused = false; yes.disabled = true;
  const body = {id: mine.id, point: mine.point.name, ...mine.body()};
  for (let times = 1; asked === mine; times += 1) {
    sayAsked(times === 1 ? "Asked…" : `No answer came. Asked again, under the same number, so that it is made once (${times})…`, "busy");
    let answer = null, told = {};
    try {
      answer = await post(`api/${mine.do}`, body, {Authorization: `Bearer ${token()}`});
      told = await answer.json();
    } catch { answer = null; }
    if (asked !== mine) return;
    if (answer && answer.ok) { find("ask").close(); look(); return; }
    if (answer && answer.status !== 504) { refuse(mine, answer, told); return; }
    await new Promise((later) => setTimeout(later, 1000));
  }
}

function refuse(mine, answer, told) {
  mine.busy = false;
  // Why it was refused stays in sight until a field is changed, or it is asked again.
  mine.refused = true;
  // What was refused was not made: the next try is another change.
  mine.id = newId();
  if (answer.status === 401) { keepToken(""); find("ask-token").hidden = false; }
  find("ask").querySelector("[value=yes]").disabled = false;
  const denied = told.error === "denied";
  sayAsked(`${denied ? "Denied" : "Not made"}: ${told.sentence}`, denied ? "denied" : "");
}

// ---- keys, buttons and the clock

function moveFocus(step) {
  const links = [...points.values()].filter(({node, group}) => !node.hidden && group.node.open).map(({link}) => link);
  const place = links.indexOf(document.activeElement);
  const next = links[place < 0 ? 0 : Math.min(links.length - 1, Math.max(0, place + step))];
  if (next) next.focus();
}

document.addEventListener("keydown", (event) => {
  if (find("ask").open || event.ctrlKey || event.metaKey || event.altKey) return;
  const typing = event.target.matches("input, select");
  if (event.key === "Escape" && opened) { location.hash = ""; event.preventDefault(); }
  if (event.key === "/" && !typing) { find("search").focus(); event.preventDefault(); }
  const listed = event.target.closest("#list") || event.target.id === "search";
  if (listed && (event.key === "ArrowDown" || event.key === "ArrowUp")) { moveFocus(event.key === "ArrowDown" ? 1 : -1); event.preventDefault(); }
});

find("search").addEventListener("input", debounced(() => { search = find("search").value.trim().toLowerCase(); siftAll(); }));
for (const key of Object.keys(FILTERS)) {
  find("filters").append(make("button", {type: "button", value: key, "aria-pressed": String(key === filter), textContent: FILTERS[key][0], onclick: (event) => {
    filter = key;
    for (const button of find("filters").children) button.setAttribute("aria-pressed", String(button === event.currentTarget));
    siftAll();
  }}));
}
find("ask").addEventListener("close", () => { asked = null; });
find("ask-fields").addEventListener("input", () => { if (asked) asked.refused = false; });
find("ask").querySelector("[value=no]").addEventListener("click", () => find("ask").close());
find("ask").querySelector("form").addEventListener("submit", (event) => { event.preventDefault(); ask(); });
addEventListener("hashchange", openHash);
setInterval(() => {
  for (const group of groups.values()) if (group.near) countDown(group);
  countOpened();
  if (day && day.end === null && opened && opened.kind === "point") day.draw();
  if (server.away !== undefined) sayHealth();
}, 1000);
setInterval(() => { if (opened) look(); }, LOOK);

if (location.hash.startsWith("#token=")) {
  keepToken(location.hash.slice(7));
  history.replaceState(null, "", location.pathname);
}
listen();
