// The page: one moment for all panes, the slider and the curves.
const runs = ["data", "beside"].map(at).filter(it => it).map(it => new Run(JSON.parse(it.textContent)));
const LAST = Math.max(...runs.map(it => it.last));
const panes = [], names = runs.length > 1 ? ["A", "B"] : [""];
let moment = 0;

function share() {
  const mostCarriers = Math.max(...runs.map(it => it.figures.number.reduce((found, it) => Math.max(found, it), 0)));
  for (const run of runs) {
    const { region } = run.data;
    view.region = Math.max(view.region, region);
    for (const life of run.lives) for (const [, base, pages] of life.spans) if (base >= 0) {
      view.usedPages = Math.max(view.usedPages, base + pages - (life.owner - 1) * region);
      view.longest = Math.max(view.longest, pages * PAGE);
    }
    run.offsetOf.forEach((it, block) => { view.longest = Math.max(view.longest, it + run.sizeOf[block]); });
  }
  view.to = view.longest;
  view.onlyUsed = view.usedPages < view.region / 4;
  view.folds = mostCarriers > MANY;
  view.hasOneColour = runs.some(it => it.data.schedulers > MOST_COLOURS);
  at("fold").hidden = !view.folds;
  at("used").hidden = view.usedPages >= view.region;
}

// What is shown
const momentWords = it => it === 0 ? "before the first entry" : it > runs[0].data.lines.length ? "at the end"
  : `after entry ${number(it)}`;
// Of each run the megabytes at a moment.
function memoryWords(it) {
  return runs.map((run, place) => {
    const at = Math.min(it, run.last), { carriers, held, queued, unknown } = run.figures;
    const least = unknown[at] ? "at least " : "", name = names[place] && names[place] + ": ";
    return `${name}${least}${megabytes(carriers[at])} of carriers, ${megabytes(held[at] + queued[at])} in blocks`;
  });
}
function show(wanted) {
  moment = Math.max(0, Math.min(LAST, Math.round(wanted) || 0));
  for (const run of runs) run.go(moment);
  draw();
  for (const pane of panes) pane.tell();
  const { id, ...told } = panes[0].root.dataset;
  Object.assign(at("picture").dataset, told, { moment });
  at("slider").value = moment;
  at("slider").setAttribute("aria-valuetext", [momentWords(moment), ...memoryWords(moment)].join("; "));
  if (document.activeElement !== at("number")) at("number").value = moment;
  for (const it of document.querySelectorAll(".cursor")) it.style.left = `${LAST ? 100 * moment / LAST : 0}%`;
  hideTip();
}
function draw() {
  LABEL = Math.round(Math.max(...panes.map(it => it.longestLabel())));
  for (const pane of panes) pane.draw();
}
function goTo(wanted) { show(wanted); history.replaceState(null, "", "#at=" + moment); }
function fromAddress() {
  const found = /at=(\d+)/.exec(location.hash);
  show(found ? +found[1] : runs[0].data.opens);
}

// What is pointed at
const tip = at("tip");
function hideTip() { tip.style.display = "none"; }
function tell(event, words) {
  if (!words) { hideTip(); return; }
  tip.textContent = words; tip.style.display = "block";
  const box = tip.getBoundingClientRect();
  tip.style.left = Math.max(0, Math.min(event.clientX + 14, window.innerWidth - box.width - 8)) + "px";
  const below = event.clientY + 18;
  tip.style.top = (below + box.height > window.innerHeight ? event.clientY - box.height - 10 : below) + "px";
}
// Of many instances the one that is pointed at has another colour.
function point(instance) {
  if (!view.hasOneColour || view.pointed === instance) return;
  view.pointed = instance;
  for (const pane of panes) pane.draw();
}
function momentUnder(event) {
  const box = event.currentTarget.getBoundingClientRect();
  return Math.round(Math.max(0, Math.min(1, (event.clientX - box.left) / box.width)) * LAST);
}
function curveWords(event) {
  const it = momentUnder(event);
  return [momentWords(it), ...memoryWords(it)].join("\n");
}

// Zoom
function zoom(factor, middle) {
  const wide = Math.max(32, Math.min(view.longest, (view.to - view.from) * factor));
  const part = (middle - view.from) / (view.to - view.from);
  view.from = Math.max(0, Math.min(view.longest - wide, middle - wide * part));
  view.to = view.from + wide;
  drawZoomed();
}
const middle = () => (view.from + view.to) / 2;
function slide(units) {
  const wide = view.to - view.from;
  view.from = Math.max(0, Math.min(view.longest - wide, view.from + units)); view.to = view.from + wide;
  drawZoomed();
}
function drawZoomed() {
  for (const pane of panes) pane.drawRows();
  const [from, to] = [view.from, view.to].map(bytesWords), isPart = view.to - view.from < view.longest;
  const part = isPart ? `${from} to ${to} of each` : "to one scale";
  at("scale").textContent = `by address, ${part}; the bar before a carrier has its owner's colour`;
}

// Controls
let playing = 0;
function play() {
  if (playing) { clearInterval(playing); playing = 0; at("play").textContent = "play"; return; }
  if (moment === LAST) goTo(0);
  const step = Math.max(1, Math.round(LAST / 600));
  at("play").textContent = "stop";
  playing = setInterval(() => { goTo(moment + step); if (moment === LAST) play(); }, LAST < 60 ? 400 : 60);
}
function keys(event) {
  const on = event.target, isSlider = on === at("slider");
  if ([at("number"), at("instance")].includes(on) || event.ctrlKey || event.metaKey || event.altKey) return;
  const part = Math.max(1, Math.round(LAST / 100)), one = event.shiftKey ? 10 : 1;
  const steps = { ArrowRight: one, ArrowLeft: -one };
  // Elsewhere these move the page.
  if (isSlider) Object.assign(steps, { ArrowUp: one, ArrowDown: -one, PageUp: -part, PageDown: part });
  if (event.key in steps) goTo(moment + steps[event.key]);
  else if (event.key === "Home") goTo(0);
  else if (event.key === "End") goTo(LAST);
  else if (event.key === "+" || event.key === "=") zoom(.5, middle());
  else if (event.key === "-") zoom(2, middle());
  else if (event.key === " " && !["BUTTON", "SUMMARY"].includes(on.tagName)) play();
  else return;
  event.preventDefault();
}
function press(id, action) { at(id).addEventListener("click", action); }
// A button that says what it does when it is pressed next.
function toggle(id, name, words) {
  const tell = () => at(id).textContent = words[+view[name]];
  press(id, () => { view[name] = !view[name]; tell(); draw(); });
  tell();
}
function connect() {
  at("slider").max = at("number").max = LAST;
  at("slider").addEventListener("input", event => goTo(+event.target.value));
  at("number").addEventListener("change", event => goTo(+event.target.value));
  press("first", () => goTo(0)); press("end", () => goTo(LAST)); press("play", play);
  press("back", () => goTo(moment - 1)); press("next", () => goTo(moment + 1));
  press("closer", () => zoom(.5, middle())); press("wider", () => zoom(2, middle()));
  press("whole", () => zoom(1e9, middle()));
  toggle("fold", "folds", ["fold full carriers", "show full carriers"]);
  toggle("used", "onlyUsed", ["show the used part", "show whole regions"]);
  window.addEventListener("keydown", keys); window.addEventListener("hashchange", fromAddress);
  window.addEventListener("resize", () => { layMarks(); draw(); });
  for (const it of document.querySelectorAll(".mark")) it.addEventListener("click", () => goTo(+it.dataset.at));
  for (const pane of panes) connectPane(pane);
  for (const it of document.querySelectorAll(".frame")) connectCurve(it);
  matchMedia("(prefers-color-scheme: dark)").addEventListener("change", () => { readColours(); legend(); draw(); });
}
function connectCurve(it) {
  it.addEventListener("pointerdown", event => goTo(momentUnder(event)));
  it.addEventListener("pointermove", event => {
    if (event.buttons === 1) goTo(momentUnder(event));
    tell(event, curveWords(event));
  });
  it.addEventListener("pointerleave", hideTip);
}
function connectPane(pane) {
  const rows = pane.at("rows"), regions = pane.at("regions");
  let held = 0;
  for (const [it, words] of [[rows, event => pane.overRows(event)], [regions, event => pane.overRegions(event)]]) {
    it.addEventListener("mousemove", event => tell(event, words(event)));
    it.addEventListener("mouseleave", () => { hideTip(); point(0); });
  }
  pane.at("scroll").addEventListener("scroll", () => { hideTip(); pane.drawRows(); });
  pane.at("table").addEventListener("toggle", () => pane.fillTable());
  rows.addEventListener("wheel", event => {
    if (!event.ctrlKey && !event.shiftKey) return;
    event.preventDefault();
    const x = event.clientX - rows.getBoundingClientRect().left - pane.rows.left;
    zoom(event.deltaY + event.deltaX > 0 ? 1.25 : .8, view.from + x / pane.rows.scale);
  }, { passive: false });
  rows.addEventListener("mousemove", event => {
    if (event.buttons === 1 && held) slide(-event.movementX / pane.rows.scale);
  });
  rows.addEventListener("mousedown", () => held = 1);
  window.addEventListener("mouseup", () => held = 0);
}
// Marks whose names would overlap stand one below the other.
function layMarks() {
  const ends = [], box = at("marks"), wide = box.clientWidth;
  for (const it of box.children) {
    const left = Math.max(0, Math.min(wide - it.offsetWidth, wide * it.dataset.at / (LAST || 1) - 8));
    let row = ends.findIndex(end => end + 4 <= left);
    if (row < 0) row = ends.length;
    ends[row] = left + it.offsetWidth;
    it.style.left = left + "px"; it.style.top = 28 * row + "px";
  }
  box.style.height = 28 * ends.length + "px";
}
function swatch(fill, words, edge) {
  const it = document.createElement("span"), box = document.createElement("i");
  box.style.background = fill;
  if (edge) box.style.border = edge;
  it.append(box, words);
  return it;
}
function keptSwatch() {
  const it = document.createElement("span"), mark = document.createElement("b");
  mark.textContent = "\u25bc "; mark.style.color = ink.mark;
  it.append(mark, "block whose release was stopped");
  return it;
}
const instances = () => Array.from({ length: Math.max(...runs.map(it => it.data.schedulers)) }, (_, it) => it + 1);
function legend() {
  const users = view.hasOneColour
    ? [swatch(ink.one, "block"), swatch(ink.pointed, "block, used by the instance that is pointed at or chosen")]
    : instances().map(it => swatch(ink[`c${it}`], `block, used by instance ${it}`));
  at("legend").replaceChildren(
    ...users, swatch(`url(${ink.tileUrl})`, "queued block"), swatch(ink.head, "header"),
    swatch(ink.gap, "gap or tail", `1px solid ${ink.edge}`),
    swatch(ink.gap, "carrier in the pool or returning", `1px dashed ${ink.edge}`),
    swatch(ink.free, "free pages", `1px solid ${ink.line}`),
    ...runs.some(it => it.data.stops.length)
      ? [swatch("none", "carrier of a stopped scheduler", `2px solid ${ink.mark}`), keptSwatch()] : [],
  );
}
// Of many instances one can be chosen, also without a pointer.
function offerInstances() {
  at("choice").hidden = !view.hasOneColour;
  if (!view.hasOneColour) return;
  at("instance").append(...instances().map(it => new Option(it, it)));
  at("instance").addEventListener("change", event => { view.chosen = +event.target.value; draw(); });
}
function begin() {
  share();
  panes.push(...runs.map((run, place) => new Pane(run, place ? "-beside" : "")));
  if (runs.length > 1) panes.forEach((it, place) => {
    const name = `${names[place]}: ${it.run.data.list}`;
    it.at("name").textContent = name; it.at("name").className = "letter";
    it.root.classList.add(`of-${names[place].toLowerCase()}`); it.root.setAttribute("aria-label", name);
  });
  readColours(); legend(); offerInstances(); connect(); layMarks(); fromAddress(); drawZoomed();
}
begin();
