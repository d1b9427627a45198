// The controls of the page: steps, looks, keys and clicks. Of a change MOST_ROWS pairs are listed.
const MOST_ROWS = 500;
// The look of the picture that is drawn, and the clock that keeps step and look in the page's address.
let drawn = null, keeping;

// What entries do, in words: how many pairs of each kind, and of which labels.
function inWords(entries) {
  const labels = [...new Set(entries.map(([, label]) => label))], kinds = entries.map(([, , before, after]) => kindOf(before, after));
  const did = tally(kinds).map(([kind, number]) => `${many(number, "pair")} ${kind}`).join(", ");
  return `${did}: ${labels.length > 3 ? many(labels.length, "label") : labels.map(named).join("; ")}`;
}

function chip(kind) { return html("span", { class: `chip ${kind}` }, `${SIGNS[kind]} ${kind}`); }
function rowOf([at, label, before, after]) {
  const { token } = cells[at], go = button(token, () => lookAt(`cell ${token}`), { title: `Look at cell ${token}` });
  const [first, then] = [before, after].map((count) => (count === 0 ? "none" : count.toLocaleString("en")));
  const pair = html("td", {}, chip(kindOf(before, after)), go);
  return html("tr", {}, pair, html("td", {}, named(label)), html("td", {}, `${first}, then ${then}`));
}

// Tells the step: in words, at the slider, as a table of its pairs, and in the list of all. The focus stays in the table or the list.
function tellStep() {
  const slider = byId("slider"), told = byId("told"), list = byId("list"), now = list.children[step].firstChild, entries = change();
  const words = step > 0 ? `After change ${step} of ${last}: ${inWords(entries)}` : `Before the first of ${many(last, "change")}`;
  const more = entries.length - MOST_ROWS, end = html("tr", {}, html("td", { colspan: 3 }, `and ${many(more, "pair")} more`));
  const was = list.querySelector("[aria-current]"), focused = document.activeElement.closest("#pairs, #list")?.id;
  slider.value = step;
  slider.setAttribute("aria-valuetext", words);
  told.setAttribute("aria-live", document.activeElement === slider ? "off" : "polite");
  told.textContent = `${words}. Held then: ${many(pairCount, "pair")}, ${many(copyCount, "copy")}.`;
  byId("which").textContent = step > 0 ? `Pairs of change ${step}` : "No change yet";
  byId("pairs").replaceChildren(...entries.slice(0, MOST_ROWS).map(rowOf), ...(more > 0 ? [end] : []));
  byId("pairs").closest(".scroll").scrollTop = 0;
  was?.removeAttribute("aria-current");
  was?.setAttribute("tabindex", -1);
  now.setAttribute("aria-current", "step");
  now.setAttribute("tabindex", 0);
  if (focused) (focused === "pairs" && byId("pairs").querySelector("button") || now).focus({ preventScroll: true });
}

// Scrolls the list of all changes, and nothing else, to the one that is shown.
function scrollList() {
  const list = byId("list"), { offsetTop, offsetHeight } = list.children[step].firstChild;
  const isSeen = offsetTop >= list.scrollTop && offsetTop + offsetHeight <= list.scrollTop + list.clientHeight;
  if (!isSeen) list.scrollTop = offsetTop - list.clientHeight / 2;
}

// Shows the look, or if that is drawn already, what changed by steps. A little later both are in the page's address, so that a link leads here:
// browsers refuse many at once.
function show(changed) {
  const select = byId("look"), also = picked === null || look === `label ${picked}` ? "" : `/${picked}`;
  select.querySelector("[data-own]")?.remove();
  if (/^(part|cell)/.test(look)) select.prepend(html("option", { value: look, "data-own": "" }, nameOf(look)));
  select.value = look;
  byId("fault").textContent = absence(look);
  if (changed && look === drawn && look !== "change") drawChange(changed); else drawPicture();
  drawn = look;
  clearTimeout(keeping);
  keeping = setTimeout(() => history.replaceState(null, "", `#${step}/${look.replaceAll(" ", "-")}${also}`), 300);
}

function stepTo(given) {
  const changed = moveTo(Math.min(Math.max(given, 0), last));
  if (last > 0) tellStep();
  show(changed);
  scrollList();
}

function lookAt(words) {
  const [kind, field] = words.split(" ");
  look = words;
  if (kind === "label") picked = Number(field);
  show();
}

// A click on a label of the legend looks at it and, if it is picked already, takes its outline away.
function pick(label) {
  if (picked !== label) return lookAt(`label ${label}`);
  picked = null;
  show();
}

function zoom(by) {
  const now = partOf(look), at = change()[0]?.[0] ?? held.findIndex((labels) => labels.size > 0);
  if (now && now.side * by >= FACE) lookAt(now.side === FACE ? "cube" : `face ${now.face}`);
  else if (now) lookAt(`part ${now.face} ${now.i + now.side / 2} ${now.j + now.side / 2} ${Math.max(now.side * by, 1)}`);
  else if (by < 1 && at >= 0) lookAt(`face ${cells[at].face}`);
}

function onKey(event) {
  const more = byId("list").contains(event.target) ? { ArrowUp: -1, ArrowDown: 1, Home: -last, End: last } : {};
  const by = { ArrowLeft: -1, ArrowRight: 1, ...more }[event.key], zooms = { "+": 0.5, "-": 2 }[event.key];
  if (event.target.closest("input, select") || event.altKey || event.ctrlKey || event.metaKey || !(zooms || by && last > 0)) return;
  if (zooms) zoom(zooms);
  else stepTo(step + by);
  event.preventDefault();
}

// The frame that the pointer is on, and the cell.
function pointedAt({ clientX, clientY }) {
  const { left, top, width } = byId("picture").getBoundingClientRect(), scale = byId("picture").viewBox.baseVal.width / width;
  const [x, y] = [(clientX - left) * scale, (clientY - top) * scale], isOn = (from, at, pixels) => at >= from && at < from + pixels;
  const frame = frames.find((frame) => isOn(frame.x, x, frame.pixels) && isOn(frame.y, y, frame.pixels));
  return { frame, at: frame && cellAt(frame, x - frame.x, y - frame.y) };
}

// A click on a cell looks at its first label or, if that is looked at, at the cell; one beside the cells of the cube looks at the face.
function onPicture(event) {
  const { frame, at } = pointedAt(event), label = at !== undefined && `label ${laidOver(at)[0][0]}`;
  if (label) lookAt(look === label || !partOf(label) ? `cell ${cells[at].token}` : label);
  else if (frame?.isOfCube) lookAt(`face ${frame.face}`);
}

// Says which labels lie over the cell that the pointer is on.
function onHover(event) {
  const { at } = pointedAt(event), laid = at === undefined ? [] : laidOver(at);
  byId("view").title = laid.map(([label, count]) => `${named(label)}: ${many(count, "copy")}`).join("\n");
  byId("view").style.cursor = at === undefined ? "" : "zoom-in";
}

function onAsk(event) {
  const token = byId("cell").value.trim().toLowerCase();
  event.preventDefault();
  if (cellPart(token)) lookAt(`cell ${token}`);
  else byId("fault").textContent = `‘${token}’ is no cell, or no cell of this page overlaps it.`;
}

function fillControls() {
  const option = (words) => html("option", { value: words }, nameOf(words)), labels = [...cellsOf.keys()].sort((one, other) => one - other);
  const lineOf = (entries, at) => `${at}. ${entries ? inWords(entries) : "Before the first change"}`;
  const listed = (entries, at) => button(lineOf(entries, at), () => stepTo(at), { tabindex: -1 });
  byId("about").textContent = `${many(data.pairs.length, "pair")} held${last > 0 ? ` after ${many(last, "change")}` : ""}`;
  document.body.classList.toggle("still", last === 0);
  byId("slider").max = last;
  byId("list").append(...[null, ...data.changes].map((entries, at) => html("li", {}, listed(entries, at))));
  byId("key").append(...KINDS.map((kind) => html("li", {}, chip(kind))));
  byId("look").append(...["cube", ...(last > 0 ? ["change"] : []), ...data.stairs.map((_, face) => `face ${face}`)].map(option),
    html("optgroup", { label: "Labels" }, ...labels.map((label) => option(`label ${label}`))));
}

function listen() {
  const clicks = { back: () => stepTo(step - 1), next: () => stepTo(step + 1), closer: () => zoom(0.5), wider: () => zoom(2) };
  for (const [id, act] of Object.entries({ ...clicks, picture: onPicture })) byId(id).addEventListener("click", act);
  byId("slider").addEventListener("input", (event) => stepTo(Number(event.target.value)));
  byId("look").addEventListener("change", (event) => lookAt(event.target.value));
  byId("ask").addEventListener("submit", onAsk);
  byId("picture").addEventListener("pointermove", onHover);
  document.addEventListener("keydown", onKey);
  matchMedia("(prefers-color-scheme: dark)").addEventListener("change", drawPicture);
  addEventListener("resize", drawPicture);
  addEventListener("hashchange", () => location.reload());
}

hold();
const [, given, words, also] = /^#(\d+)\/([^/]*)(?:\/(\d+))?$/.exec(location.hash) ?? [], wanted = words?.replaceAll("-", " ") ?? data.look[0];
if (partOf(wanted) || wanted === "change") look = wanted;
if (also || /^label/.test(look)) picked = Number(also ?? look.split(" ")[1]);
fillControls();
listen();
stepTo(Number(given ?? last));
