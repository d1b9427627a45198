// The controls of the page: the slider, the panels, keys and clicks. A list has at most MOST_ROWS rows.
const MOST_ROWS = 100;
const KINDS = { added: "added", removed: "taken away", changed: "changed" }, SIGNS = { added: "+", removed: "−", changed: "±" };
const last = steps.length;
// The number of the chosen zone, the place that was clicked, and the clock that keeps the step in the page's address.
let chosen = -1, place = null, pin = null, keeping;

const PIN = { interactive: false, radius: 6, color: "#ffffff", weight: 2, fillColor: PICKED, fillOpacity: 1 };

// An element that holds texts and elements; a text is never read as HTML.
function html(name, attributes, ...inside) {
  const element = document.createElement(name);
  for (const [key, value] of Object.entries(attributes)) {
    if (key === "onclick") element.addEventListener("click", value);
    else if (value !== false) element.setAttribute(key, value);
  }
  element.append(...inside);
  return element;
}
const own = (words) => html("bdi", {}, words);
const button = (act, attributes, ...inside) => html("button", { type: "button", onclick: act, ...attributes }, ...inside);
const inThousands = (count) => String(count).replace(/\B(?=(\d{3})+$)/g, ",");
const many = (count, name) => `${inThousands(count)} ${name}${count === 1 ? "" : "s"}`;

// The time of a step as a reader has it: the minute in UTC, or the text itself.
function timeOf({ time }) {
  const at = /^\d{4}-\d\d-\d\dT/.test(time) ? new Date(time) : new Date(NaN);
  return Number.isNaN(at.getTime()) ? time : `${at.toISOString().slice(0, 16).replace("T", " ")} UTC`;
}

// What is known of a step beside its zones, in words.
function wordsOf(number) {
  const { id, note, who } = steps[number - 1];
  return [`change ${id}`, timeOf(steps[number - 1]), who, note].filter((words) => words !== "");
}

function signOf(kind) { return html("span", { class: `sign ${kind}`, title: KINDS[kind] }, SIGNS[kind]); }
function kindOf([, before, after]) { return before < 0 ? "added" : after < 0 ? "removed" : "changed"; }

// How many zones a step adds, takes away and changes.
function tallyOf(entries) {
  const counts = { added: 0, removed: 0, changed: 0 };
  for (const entry of entries) counts[kindOf(entry)] += 1;
  return Object.keys(counts).filter((kind) => counts[kind] > 0).map((kind) => `${inThousands(counts[kind])} ${KINDS[kind]}`).join(", ");
}

// The steps that touch each zone.
const stepsOf = data.zones.map(() => []);
steps.forEach(({ entries }, at) => { for (const [zone] of entries) stepsOf[zone].push(at + 1); });

// The step since which a zone is as it is now, and since which it has been there.
function sinceOf(zone) {
  const past = stepsOf[zone].filter((number) => number <= step), isAdded = (number) => kindOf(entryOf(zone, number)) === "added";
  return { now: past.at(-1), first: past.findLast(isAdded) };
}

function entryOf(zone, number) { return steps[number - 1].entries.find(([each]) => each === zone); }

// A button with the name of a zone that chooses it.
function zoneButton(number) {
  const { zone, name } = versions[number], id = data.zones[zone];
  const swatch = html("i", { class: "swatch" });
  swatch.style.background = colours[zone];
  const words = [own(name), ...(name === id ? [] : [" ", html("small", {}, own(id))])];
  return button(() => choose(zone, number), { class: "zone", "aria-current": chosen === zone && "true" }, swatch, ...words);
}

function stepButton(number, ...inside) { return button(() => stepTo(number), { class: "step" }, ...inside); }

// Rows, and a line that says how many there are beyond the most.
function listed(rows, makeRow, what) {
  const more = rows.length - MOST_ROWS;
  return [...rows.slice(0, MOST_ROWS).map(makeRow), ...(more > 0 ? [html("li", { class: "soft" }, `and ${many(more, what)} more`)] : [])];
}

function tellStep() {
  const slider = byId("slider"), words = step > 0 ? wordsOf(step).join(", ") : "Before the first change", entries = entriesNow();
  const there = held.filter((number) => number >= 0).length;
  slider.value = step;
  slider.setAttribute("aria-valuetext", words);
  byId("told").replaceChildren(...(step > 0 ? toldParts(steps[step - 1]) : [words]),
    html("span", { class: "soft" }, `${step} of ${last}; ${many(there, "zone")}`));
  byId("back").disabled = step === 0;
  byId("next").disabled = step === last;
  byId("look").disabled = entries.length === 0;
  byId("which").textContent = step > 0 ? `This change: ${tallyOf(entries) || "no zone"}` : "No change yet";
  byId("changed").replaceChildren(...listed(entries, (entry) => {
    const kind = kindOf(entry), [zone, before, after] = entry;
    return html("li", { "data-kind": kind, "data-zone": data.zones[zone] }, signOf(kind), zoneButton(after >= 0 ? after : before));
  }, "zone"));
}

function toldParts(words) {
  const parts = [timeOf(words), words.who, words.note].filter((part) => part !== "");
  return [html("b", {}, own(`Change ${words.id}`)), ...parts.map((part) => html("span", {}, own(part)))];
}

// The changes around the step that is shown.
function tellList() {
  const from = Math.max(1, Math.min(step - MOST_ROWS / 2, last - MOST_ROWS + 1)), rows = [];
  for (let number = from; number <= Math.min(last, from + MOST_ROWS - 1); number++) {
    const words = steps[number - 1], soft = [timeOf(words), words.who].filter((part) => part !== "").join(" · ");
    const item = stepButton(number, html("b", {}, own(`${words.id}`)), html("span", {}, own(words.note || tallyOf(words.entries))),
      html("small", {}, own(soft)));
    if (number === step) item.setAttribute("aria-current", "step");
    rows.push(html("li", {}, item));
  }
  const after = last - from - MOST_ROWS + 1;
  if (after > 0) rows.push(html("li", { class: "soft" }, `and ${many(after, "later change")}`));
  if (from > 1) rows.unshift(html("li", { class: "soft" }, `${many(from - 1, "earlier change")}, and`));
  byId("list").replaceChildren(...rows);
  const list = byId("list"), now = list.querySelector("[aria-current]");
  if (now) list.scrollTop = now.offsetTop - list.clientHeight / 2;
}

// Tells which zones are at the place that was clicked, and since when.
function tellPlace() {
  if (!place) return;
  const there = versionsAt(place);
  byId("where").textContent = `At ${inPlace(place)}`;
  byId("hint").textContent = there.length === 0 ? "No zone is there." : many(there.length, "zone");
  byId("place").replaceChildren(...listed(there, (number) => {
    const { zone } = versions[number], { now, first } = sinceOf(zone);
    const parts = [zoneButton(number), sinceLine("as it is since ", now), ...(first === now ? [] : [sinceLine("there since ", first)])];
    const [since, there] = [now, first].map((each) => steps[each - 1].id);
    return html("li", { "data-zone": data.zones[zone], "data-since": since, "data-first": there }, ...parts);
  }, "zone"));
}

function sinceLine(words, number) {
  const [change, ...more] = wordsOf(number);
  return html("p", {}, words, stepButton(number, own(change)), ...more.flatMap((part) => [" · ", own(part)]));
}

function inPlace({ lat, lng }) { return `${lat.toFixed(5)}, ${(lng - 360 * Math.floor((lng + 180) / 360)).toFixed(5)}`; }

// Tells of the chosen zone: its properties as they are after this step, and its changes.
function tellChosen() {
  byId("chosen").hidden = chosen < 0;
  if (chosen < 0) return outlineOf(-1);
  const number = held[chosen], earlier = stepsOf[chosen].filter((each) => each <= step).at(-1) ?? stepsOf[chosen][0];
  const [, before, after] = entryOf(chosen, earlier), shown = number >= 0 ? number : after >= 0 ? after : before;
  const { name, properties } = versions[shown];
  byId("whose").replaceChildren("Chosen: ", own(name), number >= 0 ? "" : html("small", {}, "not there after this change"));
  const rows = [["id", data.zones[chosen]], ...properties];
  byId("properties").replaceChildren(...rows.flatMap(([key, value]) => [html("dt", {}, own(key)), html("dd", {}, own(value))]));
  byId("past").replaceChildren(...listed(stepsOf[chosen], (each) => {
    const item = stepButton(each, signOf(kindOf(entryOf(chosen, each))), own(wordsOf(each).join(" · ")));
    if (each === step) item.setAttribute("aria-current", "step");
    return html("li", {}, item);
  }, "change"));
  outlineOf(number);
}

// Chooses a zone and brings it into view; if it is chosen already, lets it go.
function choose(zone, number) {
  chosen = chosen === zone ? -1 : zone;
  if (chosen >= 0) {
    const bounds = boundsOf([number]);
    if (!map.getBounds().contains(bounds) || map.getBoundsZoom(bounds) > map.getZoom() + 3) showAll([number]);
  }
  tellStep();
  tellPlace();
  tellFound();
  tellChosen();
}

function tellFound() {
  const sought = byId("sought").value.trim().toLowerCase(), newest = new Map(), hasIt = (words) => words.toLowerCase().includes(sought);
  if (sought !== "") versions.forEach(({ zone, name }, number) => {
    if (hasIt(name) || hasIt(data.zones[zone])) newest.set(zone, held[zone] >= 0 ? held[zone] : number);
  });
  const found = [...newest.values()].sort((one, other) => versions[one].name.localeCompare(versions[other].name));
  const rows = listed(found, (number) => html("li", {}, zoneButton(number)), "zone");
  byId("found").replaceChildren(...(sought !== "" && rows.length === 0 ? [html("li", { class: "soft" }, "No zone has this.")] : rows));
}

function stepTo(given) {
  holdStep(Math.min(Math.max(given, 0), last));
  markChange();
  drawNames();
  tellStep();
  tellList();
  tellPlace();
  tellChosen();
  clearTimeout(keeping);
  keeping = setTimeout(() => history.replaceState(null, "", `#${step}`), 300);
}

function onClick({ latlng }) {
  place = latlng;
  pin?.remove();
  pin = L.circleMarker(latlng, { ...PIN, renderer: markCanvas }).addTo(map);
  tellPlace();
}

let isAsked = false;
// Says which zones lie under the pointer, once for each picture, and names so many of them.
const MOST_UNDER = 4;
function onMove({ latlng }) {
  if (isAsked) return;
  isAsked = true;
  requestAnimationFrame(() => {
    isAsked = false;
    const names = versionsAt(latlng).map((number) => own(shortened(versions[number].name))), more = names.length - MOST_UNDER;
    const shown = names.slice(0, MOST_UNDER).flatMap((name) => [" · ", name]);
    byId("under").replaceChildren(inPlace(latlng), ...shown, more > 0 ? ` and ${more} more` : "");
  });
}

function onKey(event) {
  const by = { ArrowLeft: -1, ArrowRight: 1, Home: -last, End: last }[event.key], zooms = { "+": 1, "=": 1, "-": -1 }[event.key];
  const moves = { ArrowLeft: [-100, 0], ArrowRight: [100, 0], ArrowUp: [0, -100], ArrowDown: [0, 100] }[event.key];
  if (event.target.closest("input[type=search], input[type=range]") || event.altKey || event.ctrlKey || event.metaKey) return;
  if (event.shiftKey && moves) map.panBy(moves, { animate: false });
  else if (zooms) map.setZoom(map.getZoom() + zooms);
  else if (by && !event.shiftKey) stepTo(step + by);
  else return;
  event.preventDefault();
}

function listen() {
  const numbers = () => entriesNow().flatMap(([, ...pair]) => pair).filter((number) => number >= 0);
  const moves = { back: () => stepTo(step - 1), next: () => stepTo(step + 1) };
  const clicks = { ...moves, look: () => showAll(numbers()), whole: () => showAll(versions.keys()) };
  for (const [id, act] of Object.entries(clicks)) byId(id).addEventListener("click", act);
  byId("slider").addEventListener("input", (event) => stepTo(Number(event.target.value)));
  byId("sought").addEventListener("input", tellFound);
  document.addEventListener("keydown", onKey);
  addEventListener("hashchange", () => stepTo(stepOfAddress()));
  map.on("click", onClick).on("mousemove", onMove).on("mouseout", () => byId("under").replaceChildren()).on("moveend resize", drawNames);
}

// The step that the page's address names, or the last.
function stepOfAddress() { return Number(/^#(\d+)$/.exec(location.hash)?.[1] ?? last); }

byId("about").textContent = `${many(data.zones.length, "zone")}, ${many(last, "change")}`;
byId("slider").max = last;
byId("steps").hidden = last === 0;
showAll(versions.keys());
drawGround();
listen();
stepTo(stepOfAddress());
