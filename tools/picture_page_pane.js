// The drawing of a run: its carriers one below the other, and the regions. All panes have one scale and one zoom.

// Colours
const style = name => getComputedStyle(document.documentElement).getPropertyValue(name).trim();
const INKS = ["page", "text", "dim", "line", "free", "gap", "edge", "head", "queued", "queued-pale", "mark", "one",
  "pointed", "c1", "c2", "c3", "c4", "c5", "c6", "c7", "c8"];
const ink = {};
function readColours() {
  for (const it of INKS) ink[it] = style("--" + it);
  const tile = document.createElement("canvas"), pen = tile.getContext("2d");
  tile.width = tile.height = 8;
  pen.fillStyle = ink["queued-pale"]; pen.fillRect(0, 0, 8, 8);
  pen.strokeStyle = ink.queued; pen.lineWidth = 2.6;
  pen.beginPath();
  for (const it of [-8, 0, 8]) { pen.moveTo(it, 8); pen.lineTo(it + 8, 0); }
  pen.stroke();
  ink.tile = pen.createPattern(tile, "repeat");
  ink.tileUrl = tile.toDataURL();
}
const FONT = "12px system-ui, -apple-system, 'Segoe UI', Roboto, sans-serif", SMALL = FONT.replace("12px", "11px");
const BOLD = "600 " + FONT;
const PAD = 14, ROW = 30, TALL_ROW = 54, GROUP = 26, STRIP = 40, SCALE = 22;
// In a pane that is less wide the words of a carrier stand above it.
const NARROW = 720;
// Where there are more carriers than this, those with so many percent in blocks stand in one row for each owner.
const MANY = 40, FULL = 90;
// Of more instances than this all have one colour, but for the one that is pointed at.
const MOST_COLOURS = 8;
const COLUMN = 16, MOST_COLUMNS = 4;
// As wide as the longest words before a carrier need.
let LABEL = 270;
// What all panes show: from which unit to which of each carrier, and whether whole regions, or full carriers each by
// itself. The instance that is pointed at, and the one that is chosen: 0 if none is.
const view = { from: 0, to: 0, longest: PAGE, region: 0, usedPages: 1, onlyUsed: false, folds: false, pointed: 0,
  chosen: 0, hasOneColour: false };

function pen(canvas, width, height) {
  const ratio = window.devicePixelRatio || 1;
  if (canvas.width !== Math.round(width * ratio) || canvas.height !== Math.round(height * ratio)) {
    canvas.width = Math.round(width * ratio); canvas.height = Math.round(height * ratio);
  }
  canvas.style.height = height + "px";
  const it = canvas.getContext("2d");
  it.setTransform(ratio, 0, 0, ratio, 0, 0);
  it.clearRect(0, 0, width, height);
  it.font = FONT; it.textBaseline = "middle";
  return it;
}
function write(it, words, x, y, colour, font, width) {
  it.font = font; it.fillStyle = colour;
  if (width && it.measureText(words).width > width) {
    while (words.length > 1 && it.measureText(words + "..").width > width) words = words.slice(0, -1);
    words += "..";
  }
  it.fillText(words, x, y);
}
// The octagon of a stop.
function sign(it, x, y) {
  it.fillStyle = ink.mark; it.beginPath();
  for (let corner = .5; corner < 8; corner++)
    it.lineTo(x + 6 * Math.cos(corner * Math.PI / 4), y + 6 * Math.sin(corner * Math.PI / 4));
  it.fill();
}
function frame(it, x, y, width, height, carrier) {
  it.fillStyle = ink.gap; it.fillRect(x, y, width, height);
  if (width < 4) return;
  it.strokeStyle = carrier.stopped ? ink.mark : ink.edge; it.lineWidth = carrier.stopped ? 2 : 1;
  it.setLineDash(carrier.standing >= 2 ? [4, 3] : []);
  it.strokeRect(x - .5, y - .5, width + 1, height + 1);
  it.setLineDash([]);
}
// A round step of which at most so many make the length.
function roundStep(length, most) {
  let step = .001;
  for (let turn = 0; length / step > most; turn++) step *= [2, 2.5, 2][turn % 3];
  return step;
}

// Blocks of one carrier on a line of pixels: wide ones each by itself, the others as how much of each pixel they cover.
class Line {
  constructor(width) {
    this.width = width;
    this.held = new Float32Array(width + 2);
    this.queued = new Float32Array(width + 2);
    this.wide = [];
    this.marks = [];
  }
  cover(list, from, to) {
    from = Math.max(from, 0); to = Math.min(to, this.width);
    for (let it = Math.floor(from); it < to; it++) list[it] += Math.min(to, it + 1) - Math.max(from, it);
  }
  put(from, to, queued, kept) {
    if (to <= 0 || from >= this.width) return;
    if (queued && kept) this.marks.push((Math.max(from, 0) + Math.min(to, this.width)) / 2);
    if (to - from >= 3) this.wide.push([from, to, queued]);
    else this.cover(queued ? this.queued : this.held, from, to);
  }
  draw(it, x, y, height, colour) {
    for (const [list, fill] of [[this.held, colour], [this.queued, ink.queued]]) {
      it.fillStyle = fill;
      for (let from = 0; from < this.width;) {
        const part = shade(list[from]);
        let to = from + 1;
        while (to < this.width && shade(list[to]) === part) to++;
        if (part) { it.globalAlpha = part / 16; it.fillRect(x + from, y, to - from, height); }
        from = to;
      }
    }
    it.globalAlpha = 1;
    for (const [from, to, queued] of this.wide) {
      const left = Math.max(from, 0), right = Math.min(to, this.width);
      it.fillStyle = queued ? ink.tile : colour;
      it.fillRect(x + left, y, Math.max(right - left - (to <= this.width ? 1 : 0), 1), height);
    }
    it.fillStyle = ink.mark;
    for (const middle of this.marks) {
      it.beginPath(); it.moveTo(x + middle, y + 6); it.lineTo(x + middle - 5, y - 3); it.lineTo(x + middle + 5, y - 3);
      it.fill();
    }
  }
}
const shade = part => part <= 0 ? 0 : Math.max(4, Math.min(16, Math.ceil(part * 16)));

const isFull = it => it.pages && !it.queued && !it.stopped && 100 * it.held >= FULL * it.units;
function fullWords(full) {
  const units = full.reduce((sum, it) => sum + it.units, 0), held = full.reduce((sum, it) => sum + it.held, 0);
  return `${plural(full.length, "full carrier")}, ${megabytes(units)}, ${Math.floor(100 * held / units)} % in blocks `
    + `(${FULL} or more each): ${rangesWords(full.map(it => it.life.number).sort((a, b) => a - b))}`;
}
const percentOf = it => Math.floor(100 * (it.held + it.queued) / it.units);
// The two lines of a carrier's label.
function labelsOf(carrier) {
  const life = carrier.life;
  const use = carrier.pages ? ` \u00b7 ${bytesWords(carrier.units)}, ${percentOf(carrier)} % in blocks` : "";
  const place = carrier.base < 0 ? "place not known" : pagesWords(carrier.base, carrier.pages);
  const isTold = carrier.standing > 0 || carrier.instance !== life.owner || carrier.stopped;
  const who = isTold ? ` \u00b7 ${standingWords(carrier)}` : "";
  return [`carrier ${life.number} \u00b7 ${life.kind}${use}`, place + who];
}

class Pane {
  constructor(run, suffix) {
    this.run = run; this.suffix = suffix;
    this.root = at("pane").content.firstElementChild.cloneNode(true);
    for (const it of this.root.querySelectorAll("[data-id]")) it.id = it.dataset.id + suffix;
    at("panes").append(this.root);
    // The instances whose regions are drawn: all; of many, those that have a carrier in the run, or are stopped.
    this.instances = Array.from({ length: run.data.schedulers }, (_, it) => it + 1);
    this.shown = this.instances.filter(instance => this.instances.length <= COLUMN || run.stoppedAt.has(instance)
      || run.lives.some(it => it.owner === instance));
    const bare = this.instances.filter(it => !this.shown.includes(it));
    const said = `Without a carrier in the whole run: ${bare.length === 1 ? "instance" : "instances"} `;
    this.at("bare").textContent = bare.length ? said + rangesWords(bare) : "";
  }
  at(name) { return at(name + this.suffix); }
  get isNarrow() { return this.root.clientWidth < NARROW; }
  colourOf(instance) {
    if (!view.hasOneColour) return ink[`c${instance}`];
    return instance === (view.pointed || view.chosen) ? ink.pointed : ink.one;
  }
  draw() { this.drawRows(); this.drawRegions(); }
  // Gives each of these carriers a line with its blocks, its first unit being at `first` of it.
  fillLines(width, first, scale, carriers) {
    const { run } = this;
    for (const it of run.carriers) it.line = null;
    for (const it of carriers) { it.line = new Line(width); it.first = first(it); }
    for (const block of run.there.blocks()) {
      const { line, first } = run.byLife[run.lifeOf[block]];
      if (!line) continue;
      const from = (first + run.offsetOf[block]) * scale;
      line.put(from, from + run.sizeOf[block] * scale, run.isQueued(block), run.isKept[block]);
    }
  }

  // The regions stand in columns, row by row.
  layRegions() {
    const width = this.at("regions").clientWidth, most = Math.max(1, Math.min(MOST_COLUMNS, Math.floor(width / 280)));
    const columns = Math.max(1, Math.min(most, Math.ceil(this.shown.length / COLUMN))), wide = width / columns;
    const label = columns > 1 ? 164 : this.isNarrow ? 118 : LABEL, long = Math.floor(wide - label - PAD);
    const pages = view.onlyUsed ? view.usedPages : view.region;
    const strips = Math.ceil(this.shown.length / columns) * STRIP;
    this.regions = { width, columns, wide, label, long, pages, strips, scale: long / (pages * PAGE) };
  }
  stripOf(instance) {
    const { wide, columns } = this.regions, place = this.shown.indexOf(instance);
    return { x: place % columns * wide, y: Math.floor(place / columns) * STRIP + 8 };
  }
  drawRegions() {
    this.layRegions();
    const { columns, wide, label, long, strips, scale, width } = this.regions, { run } = this;
    const it = pen(this.at("regions"), width, strips + SCALE + 6), { region } = run.data;
    const placed = run.carriers.filter(it => it.base >= 0);
    this.fillLines(long, carrier => (carrier.base - (carrier.life.owner - 1) * region) * PAGE, scale, placed);
    for (const instance of this.shown) this.drawStrip(it, instance);
    for (let column = 0; column < columns && this.shown.length; column++)
      this.drawScale(it, column * wide + label, strips + 2);
    this.drawn = 0;
    for (const carrier of placed) {
      const strip = this.stripOf(carrier.life.owner), y = strip.y + 3, left = strip.x + label;
      const x = left + carrier.first * scale;
      frame(it, x, y, carrier.units * scale, 20, carrier);
      carrier.line.draw(it, left, y, 20, this.colourOf(carrier.instance));
      it.fillStyle = ink.head; it.fillRect(x, y, Math.max(1, HEADER * scale), 20);
      this.drawn += carrier.blocks;
    }
    this.at("regions").setAttribute("aria-label", `The regions of ${plural(this.shown.length, "instance")}, to scale`);
  }
  drawStrip(it, instance) {
    const { label, long, pages, scale } = this.regions, { x, y } = this.stripOf(instance), { region } = this.run.data;
    it.fillStyle = this.colourOf(instance); it.fillRect(x + PAD, y, 4, 26);
    write(it, `instance ${instance}`, x + PAD + 12, y + 7, ink.text, FONT);
    if (this.run.isStopped(instance)) {
      sign(it, x + PAD + 84, y + 7);
      if (label >= 200) write(it, "stopped", x + PAD + 95, y + 7, ink.mark, BOLD);
    }
    const shown = Math.min(pages, region);
    const part = pagesWords((instance - 1) * region, shown) + (shown < region ? ", rest unused" : "");
    write(it, part, x + PAD + 12, y + 21, ink.dim, SMALL, label - PAD - 18);
    it.fillStyle = ink.free; it.fillRect(x + label, y, Math.min(long, shown * PAGE * scale), 26);
  }
  // The megabytes of a region, below each column of them.
  drawScale(it, x, y) {
    const { long, pages, columns } = this.regions;
    const whole = pages * PAGE / UNITS_OF_A_MB, step = roundStep(whole, columns === 1 && long > 500 ? 10 : 4);
    it.fillStyle = ink.edge; it.fillRect(x, y, long, 1);
    for (let count = 0; count * step <= whole + 1e-6; count++) {
      const place = x + long * count * step / whole;
      it.fillStyle = ink.edge; it.fillRect(place, y, 1, 4);
      const words = +(count * step).toFixed(3) + ((count + 1) * step > whole + 1e-6 ? " MB" : "");
      it.font = SMALL;
      const middle = Math.min(place - it.measureText(words).width / 2, x + long - it.measureText(words).width);
      write(it, words, Math.max(middle, x), y + 12, ink.dim, SMALL);
    }
  }

  rowsOf() {
    const rows = [], { carriers } = this.run; let y = 6, owner = 0;
    const add = (row, height) => { rows.push({ y, ...row, height }); y += height; };
    for (const it of carriers) {
      if (it.life.owner !== owner) {
        owner = it.life.owner;
        add({ owner }, GROUP);
        const full = view.folds ? carriers.filter(other => other.life.owner === owner && isFull(other)) : [];
        if (full.length) add({ owner, full }, GROUP);
      }
      if (!view.folds || !isFull(it)) add({ owner, carrier: it }, this.isNarrow ? TALL_ROW : ROW);
    }
    return { rows, height: y + 6 };
  }
  longestLabel() {
    const it = this.at("rows").getContext("2d");
    const wide = (words, font) => { it.font = font; return it.measureText(words).width; };
    const widths = this.run.carriers.map(labelsOf)
      .map(([first, second]) => Math.max(wide(first, FONT), wide(second, SMALL)));
    return widths.reduce((found, it) => Math.max(found, it + PAD + 30), 270);
  }
  drawRows() {
    const canvas = this.at("rows"), box = this.at("scroll"), { rows, height } = this.rowsOf();
    const width = box.clientWidth, shown = Math.max(60, Math.min(height, Math.round(window.innerHeight * .58)));
    this.at("filler").style.height = Math.max(0, height - shown) + "px";
    const it = pen(canvas, width, shown), top = box.scrollTop, left = this.isNarrow ? PAD : LABEL;
    const long = Math.floor(width - left - PAD), scale = long / (view.to - view.from);
    const seen = rows.filter(row => row.y + row.height > top && row.y < top + shown);
    this.rows = { rows, left, long, scale };
    this.fillLines(long, () => -view.from, scale, seen.filter(row => row.carrier).map(row => row.carrier));
    for (const row of seen) {
      const y = row.y - top;
      if (row.carrier) this.drawRow(it, row.carrier, y);
      else if (row.full) write(it, fullWords(row.full), PAD + 12, y + GROUP / 2, ink.text, FONT, width - 2 * PAD);
      else write(it, `carriers of instance ${row.owner}`, PAD, y + GROUP / 2 + 2, ink.dim, BOLD);
    }
    if (!rows.length) write(it, "no carrier is there", PAD, 30, ink.dim, FONT);
    const count = plural(this.run.carriers.length, "carrier");
    canvas.setAttribute("aria-label", `${count}, each from its first page to its last; the table below tells the same`);
  }
  drawRow(it, carrier, y) {
    const life = carrier.life, [first, second] = labelsOf(carrier), { left, long, scale } = this.rows;
    const room = this.isNarrow ? long - 12 : left - PAD - 14;
    it.fillStyle = this.colourOf(life.owner); it.fillRect(PAD, y + 2, 4, ROW - 6);
    write(it, first, PAD + 12, y + 8, ink.text, FONT, room);
    write(it, second, PAD + 12, y + 21, carrier.stopped ? ink.mark : ink.dim, SMALL, room);
    if (carrier.stopped) sign(it, PAD + 18 + room - 20, y + 7);
    const from = Math.max(0, -view.from * scale), to = Math.min(long, (carrier.units - view.from) * scale);
    const top = y + (this.isNarrow ? 31 : 2), high = this.isNarrow ? 18 : ROW - 7;
    if (to > 0) frame(it, left + from, top, to - from, high, carrier);
    carrier.line.draw(it, left, top, high, this.colourOf(carrier.instance));
    const header = (HEADER - view.from) * scale;
    if (header > 0) { it.fillStyle = ink.head; it.fillRect(left + from, top, Math.max(1, header - from), high); }
  }

  // What is said of the moment
  tell() {
    const { run } = this, count = run.there.count, root = this.root.dataset;
    [this.at("words").textContent, this.at("line").textContent] = run.entry();
    const stopped = run.data.stops.filter(([since]) => since <= run.moment).map(([, , words]) => stopWords(words));
    this.at("stops").replaceChildren(...stopped);
    const queued = run.there.blocks().reduce((sum, block) => sum + run.isQueued(block), 0);
    Object.assign(root, { moment: run.moment, blocks: count, queued, carriers: run.carriers.length });
    Object.assign(root, { stopped: stopped.length, drawn: this.drawn });
    this.at("figures").replaceChildren(...this.figures(queued).map(([words, value, more]) => {
      const it = document.createElement("span"), bold = document.createElement("b");
      bold.textContent = value; it.append(bold, ` ${words}`, more ? ` (${more})` : "");
      return it;
    }));
    this.fillTable();
  }
  // Megabytes come first.
  figures(queued) {
    const { run } = this, unknown = run.figure("unknown"), least = unknown ? "at least " : "";
    const [carriers, held, waiting] = ["carriers", "held", "queued"].map(name => run.figure(name));
    const blocks = held + waiting, units = it => plural(it, "unit"), gaps = carriers - blocks;
    const told = [["of carriers", least + megabytes(carriers), units(carriers)],
      ["in blocks", megabytes(blocks), units(blocks)],
      ["free in carriers", least + megabytes(gaps), `${carriers ? Math.round(100 * gaps / carriers) : 0} percent`],
      ["carriers", number(run.carriers.length)], ["blocks", number(run.there.count)],
      ["queued", megabytes(waiting), plural(queued, "block")]];
    if (unknown) told.push([`of unknown size, of which the blocks alone count`, plural(unknown, "carrier")]);
    return told;
  }
  // The carriers in words, while the table is open.
  fillTable() {
    if (!this.at("table").open) return;
    const cells = it => [it.life.number, it.pages ? bytesWords(it.units) : "not known", it.pages ? percentOf(it) : "",
      it.blocks, it.life.kind, it.life.owner, standingWords(it) + (it.stopped ? ", stopped" : ""),
      it.base < 0 ? "not known" : pagesWords(it.base, it.pages)];
    this.at("body").replaceChildren(...this.run.carriers.map(it => {
      const row = document.createElement("tr");
      row.append(...cells(it).map((words, place) => {
        const cell = document.createElement(place ? "td" : "th");
        cell.textContent = words;
        return cell;
      }));
      return row;
    }));
  }

  // What is pointed at
  carrierWords(it) {
    const place = it.base < 0 ? "base and pages not known" : `base ${it.base}, ${plural(it.pages, "page")} of 4 kB`;
    const free = it.pages ? `, ${bytesWords(it.units - it.held - it.queued - HEADER)} free` : "";
    const who = standingWords(it) + (it.stopped ? ", which is stopped" : "");
    const size = it.pages ? sizeWords(it.units) : "size not known", queued = `${bytesWords(it.queued)} queued`;
    return `carrier ${it.life.number}, ${it.life.kind}, owner ${it.life.owner}, ${who}\n`
      + `${size}, ${plural(it.blocks, "block")}, ${bytesWords(it.held)} live, ${queued}${free}\n${place}`;
  }
  address(carrier, offset) {
    if (carrier.base < 0) return "address not known";
    return `address 0x${((carrier.base * PAGE + offset) * BYTES).toString(16)} in the super carrier`;
  }
  // What lies in a carrier from one unit up to another: its block, or how many there are, or the gap.
  insideWords(carrier, from, to) {
    const { run } = this, hit = []; let below = HEADER, above = carrier.units;
    for (const block of run.there.blocks()) {
      if (run.lifeOf[block] !== carrier.life.id) continue;
      const begin = run.offsetOf[block], end = begin + run.sizeOf[block];
      if (end > from && begin < to) hit.push(block);
      if (end <= from) below = Math.max(below, end);
      if (begin >= to) above = Math.min(above, begin);
    }
    if (hit.length > 1) {
      const units = hit.reduce((sum, block) => sum + run.sizeOf[block], 0);
      const first = hit.reduce((found, block) => run.offsetOf[block] < run.offsetOf[found] ? block : found);
      return `${number(hit.length)} blocks with ${sizeWords(units)}, the first is block ${run.nameOf[first]}\n`
        + "zoom in to point at one";
    }
    if (hit.length) return this.blockWords(carrier, hit[0]);
    if (to <= HEADER) return `header of the carrier, ${sizeWords(HEADER)}\n${this.address(carrier, 0)}`;
    if (from >= carrier.units) return "";
    const what = carrier.life.kind === "single" ? "tail" : "gap";
    return `${what} of ${sizeWords(above - below)} at offset ${number(below)}\n${this.address(carrier, below)}`;
  }
  blockWords(carrier, block) {
    const { run } = this, how = run.isKept[block] ? ", of a release that was stopped at entry" : ", queued by entry";
    const queued = run.isQueued(block) ? `${how} ${run.queuedAt[block]}` : "";
    return `block ${run.nameOf[block]}, since entry ${run.bornAt[block]}${queued}\n`
      + `carrier ${carrier.life.number}, offset ${number(run.offsetOf[block])}, ${sizeWords(run.sizeOf[block])}\n`
      + this.address(carrier, run.offsetOf[block]);
  }
  rowUnder(event) {
    const y = event.clientY - this.at("rows").getBoundingClientRect().top + this.at("scroll").scrollTop;
    return this.rows.rows.find(it => y >= it.y && y < it.y + it.height);
  }
  overRows(event) {
    const row = this.rowUnder(event);
    point(row ? row.carrier ? row.carrier.instance : row.owner : 0);
    if (!row || !row.carrier) return row && row.full ? fullWords(row.full) : "";
    const x = event.clientX - this.at("rows").getBoundingClientRect().left - this.rows.left;
    const unit = view.from + x / this.rows.scale;
    if (x < 0 || unit >= row.carrier.units) return x < this.rows.long ? this.carrierWords(row.carrier) : "";
    const wide = 1 / this.rows.scale, from = wide > 1 ? unit - wide / 2 : Math.floor(unit);
    return this.insideWords(row.carrier, from, wide > 1 ? unit + wide / 2 : from + 1);
  }
  overRegions(event) {
    const { wide, label, long, scale, columns } = this.regions, box = this.at("regions").getBoundingClientRect();
    const column = Math.floor((event.clientX - box.left) / wide), row = Math.floor((event.clientY - box.top) / STRIP);
    const instance = this.shown[row * columns + column], x = event.clientX - box.left - column * wide - label;
    point(row >= 0 && column < columns && instance || 0);
    if (x < 0 || x >= long || row < 0 || column >= columns || !instance) return "";
    const page = x / scale / PAGE + (instance - 1) * this.run.data.region;
    const carrier = this.run.carriers.find(it => it.base >= 0 && it.base <= page && page < it.base + it.pages);
    if (!carrier) return `page ${number(Math.floor(page))} of the super carrier, in no carrier`;
    const unit = (page - carrier.base) * PAGE, half = .5 / scale;
    return this.carrierWords(carrier) + "\n" + this.insideWords(carrier, Math.max(0, unit - half), unit + half);
  }
}
// A stop, and below it what its scheduler keeps.
function stopWords([first, ...others]) {
  const box = document.createElement("div"), bold = document.createElement("b"), list = document.createElement("ul");
  bold.textContent = first;
  list.append(...others.map(words => {
    const it = document.createElement("li");
    it.textContent = words;
    return it;
  }));
  box.append(bold, list);
  return box;
}
