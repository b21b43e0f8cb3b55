"use strict";
// A run by its data: which blocks and carriers there are at a moment. A moment is the number of entries before it.
const PAGE = 512, HEADER = 8, BYTES = 8, NEVER = 2 ** 30, UNITS_OF_A_MB = 2 ** 17;
const at = id => document.getElementById(id);

// Numbers in words
const number = it => it.toLocaleString("en").replace(/,/g, "\u202f");
const plural = (count, word) => `${number(count)} ${word}${count === 1 ? "" : "s"}`;
const pagesWords = (base, pages) =>
  pages === 1 ? `page ${number(base)}` : `pages ${number(base)} to ${number(base + pages - 1)}`;
const megabytes = units => `${(units / UNITS_OF_A_MB).toFixed(1)} MB`;
function bytesWords(units) {
  const bytes = units * BYTES;
  if (units >= UNITS_OF_A_MB / 10) return megabytes(units);
  return bytes < 1024 ? plural(bytes, "byte") : `${(bytes / 1024).toFixed(1)} kB`;
}
const sizeWords = units => `${bytesWords(units)} (${plural(units, "unit")})`;
// As in 1, 3 to 5.
function rangesWords(numbers) {
  const runs = [];
  for (const it of numbers) {
    const last = runs[runs.length - 1];
    if (last && last[1] === it - 1) last[1] = it; else runs.push([it, it]);
  }
  return runs.map(([first, last]) => first === last ? first : `${first} to ${last}`).join(", ");
}

// For each moment up to the last the blocks of which `moments` has it.
function byMoment(moments, last) {
  const start = new Int32Array(last + 2);
  for (const it of moments) if (it <= last) start[it + 1]++;
  for (let it = 1; it < start.length; it++) start[it] += start[it - 1];
  const next = start.slice(), blocks = new Int32Array(start[last + 1]);
  moments.forEach((it, block) => { if (it <= last) blocks[next[it]++] = block; });
  return moment => blocks.subarray(start[moment], start[moment + 1]);
}

// The blocks that are there: kept for some moments, and followed from there.
class There {
  constructor(run) {
    const count = run.nameOf.length;
    this.run = run; this.moment = 0; this.count = 0;
    this.list = new Int32Array(count); this.place = new Int32Array(count).fill(-1);
    this.comeAt = byMoment(run.bornAt, run.last); this.leaveAt = byMoment(run.goneAt, run.last);
    this.kept = new Map();
    this.every = this.spacing();
    for (let moment = 0; moment <= run.last; moment++) {
      if (moment) this.forward();
      if (moment % this.every === 0) this.kept.set(moment, this.list.slice(0, this.count));
    }
  }
  spacing() {
    const { bornAt, goneAt, last } = this.run;
    let sum = 0;
    for (let block = 0; block < bornAt.length; block++) sum += Math.min(goneAt[block], last) - bornAt[block];
    return Math.max(256, Math.ceil(sum / 6e6));
  }
  add(block) { this.place[block] = this.count; this.list[this.count++] = block; }
  remove(block) {
    const place = this.place[block];
    if (place < 0) return;
    const moved = this.list[--this.count];
    this.list[place] = moved; this.place[moved] = place; this.place[block] = -1;
  }
  forward() {
    const moment = ++this.moment;
    for (const block of this.leaveAt(moment)) this.remove(block);
    for (const block of this.comeAt(moment)) if (this.run.goneAt[block] > moment) this.add(block);
  }
  backward() {
    const moment = this.moment--;
    for (const block of this.comeAt(moment)) this.remove(block);
    for (const block of this.leaveAt(moment)) if (this.run.bornAt[block] < moment) this.add(block);
  }
  restart(moment) {
    for (let it = 0; it < this.count; it++) this.place[this.list[it]] = -1;
    this.moment = moment; this.count = 0;
    for (const block of this.kept.get(moment)) this.add(block);
  }
  go(moment) {
    const nearest = Math.floor(moment / this.every) * this.every;
    if (Math.abs(moment - this.moment) > moment - nearest) this.restart(nearest);
    while (this.moment < moment) this.forward();
    while (this.moment > moment) this.backward();
  }
  blocks() { return this.list.subarray(0, this.count); }
}

// The last of these lists that begins with no later moment.
function lastBy(lists, moment) {
  let low = 0, high = lists.length;
  while (low < high) {
    const middle = (low + high) >> 1;
    if (lists[middle][0] <= moment) low = middle + 1; else high = middle;
  }
  return lists[low - 1];
}

class Run {
  constructor(data) {
    this.data = data; this.last = data.last;
    this.readBlocks(data.blocks);
    this.isKept = new Uint8Array(this.nameOf.length);
    for (const block of data.kept) this.isKept[block] = 1;
    this.stoppedAt = new Map(data.stops.map(([moment, scheduler]) => [scheduler, moment]));
    this.lives = data.lives.map((it, id) =>
      ({ ...it, id, gone: it.gone < 0 ? NEVER : it.gone, owner: Math.ceil(it.number / data.numbers) }));
    this.figures = {};
    for (const [name, list] of Object.entries(data.figures)) {
      let sum = 0;
      this.figures[name] = Float64Array.from(list, it => sum += it);
    }
    this.there = new There(this);
    this.byLife = new Array(this.lives.length);
  }
  readBlocks(blocks) {
    const summed = list => { let sum = 0; return Int32Array.from(list, it => sum += it); };
    this.nameOf = summed(blocks.name); this.lifeOf = summed(blocks.life); this.bornAt = summed(blocks.born);
    this.offsetOf = Int32Array.from(blocks.offset); this.sizeOf = Int32Array.from(blocks.size);
    const after = list => Int32Array.from(list, (it, block) => it < 0 ? NEVER : this.bornAt[block] + it);
    this.queuedAt = after(blocks.queued); this.goneAt = after(blocks.gone);
  }
  // Goes to a moment, or to the last one where it has fewer.
  go(moment) {
    this.moment = Math.min(moment, this.last);
    this.there.go(this.moment);
    this.carriers = this.carriersNow();
    for (const it of this.carriers) this.byLife[it.life.id] = it;
    for (const block of this.there.blocks()) {
      const it = this.byLife[this.lifeOf[block]];
      it.blocks++;
      it.end = Math.max(it.end, this.offsetOf[block] + this.sizeOf[block]);
      if (this.isQueued(block)) it.queued += this.sizeOf[block]; else it.held += this.sizeOf[block];
    }
    for (const it of this.carriers) it.units = it.units || it.end;
  }
  isQueued(block) { return this.queuedAt[block] <= this.moment; }
  isStopped(scheduler) { return this.stoppedAt.has(scheduler) && this.stoppedAt.get(scheduler) <= this.moment; }
  carriersNow() {
    const found = [], moment = this.moment;
    for (const life of this.lives) {
      if (life.born > moment || moment >= life.gone) continue;
      const [, base, pages] = lastBy(life.spans, moment), [, standing, instance] = lastBy(life.told, moment);
      found.push({
        life, base, pages, units: pages * PAGE, standing, instance, held: 0, queued: 0, blocks: 0, end: HEADER,
        stopped: [0, 1, 3].includes(standing) && this.isStopped(instance),
      });
    }
    const place = it => it.base < 0 ? NEVER : it.base;
    return found.sort((a, b) => a.life.owner - b.life.owner || place(a) - place(b) || a.life.number - b.life.number);
  }
  figure(name) { return this.figures[name][this.moment]; }
  // What an entry says, and whose it is.
  entry() {
    const { lines, by, stops } = this.data, line = lines[this.moment - 1] || "";
    const who = by.length ? `Scheduler ${by[this.moment - 1]}` : "The scheduler";
    const all = stops.length ? "each scheduler has ended or is stopped" : "all schedulers have ended";
    const outside = this.moment ? `The end of the run: ${all}.` : "Before the first entry.";
    return [line ? `${who} ${entryWords(line)}.` : outside, line];
  }
}
const standingWords = it => [
  `employed by ${it.instance}`, `used or abandoned by ${it.instance}`, `in the pool, abandoned by ${it.instance}`,
  it.stopped ? `left busy by ${it.instance}` : `in the pool, ${it.instance} is releasing a block`,
  `returning to ${it.life.owner}`,
][it.standing];

// An entry in words.
const placeWords = (carrier, offset, size) =>
  `${sizeWords(+size)} at offset ${number(+offset)} of carrier ${carrier}`;
const notHeld = "which it does not hold: nothing is done";
// Of the words 'fail need NEED looked K space'.
function failWords([, , need, , looked, cause]) {
  const why = cause === "numbers" ? "all carrier numbers are in use" : "no run of free pages holds a carrier for it";
  const search = +looked ? `, ${plural(+looked, "carrier")} of the pool had no room` : "";
  return `no place for ${sizeWords(+need)}: no gap was chosen${search}, and ${why}`;
}
function entryWords(line) {
  const [word, ...rest] = line.split("\n")[0].split(" ");
  return (WORDS[word] || (() => "is idle"))(...rest);
}
const WORDS = {
  alloc: (name, ...rest) =>
    `allocates block ${name}: ` + (rest[0] === "fail" ? failWords(rest) : placeWords(...rest)),
  free: (name, how, queue) => {
    const queued = `which goes to the queue of scheduler ${queue}`;
    return `frees block ${name}, ${{ done: "which is released", queued, skipped: notHeld }[how]}`;
  },
  realloc: (old, name, ...rest) => {
    if (rest[0] === "skipped") return `reallocates block ${old}, ${notHeld}`;
    if (rest[0] === "fail") return `reallocates block ${old} as ${name}: ${failWords(rest)}; block ${old} stays`;
    const [carrier, offset, size, moves, how, queue] = rest, place = placeWords(carrier, offset, size);
    if (moves === "here") return `reallocates block ${old}, which stays and is called ${name}: ${place}`;
    const end = how === "done" ? "is released" : `goes to the queue of scheduler ${queue}`;
    return `reallocates block ${old}, which moves and is called ${name}: ${place}; the old one ${end}`;
  },
  give: (name, to, skipped) => `gives block ${name}` + (skipped ? `, ${notHeld}` : ` to scheduler ${to}`),
  take: (name, how, tries) => how === "got" ? `takes block ${name}`
    : `looks for block ${name}, ${plural(+tries, "time")}, and does not find it`,
  info: () => "tells the figures of its carriers",
  stopped: steps => `is stopped after ${plural(+steps, "step")} of its own, and does nothing more`,
};
