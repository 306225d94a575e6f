// What the page of `view html --whole` does. A run has more rows than a browser shows quickly, so those in sight are drawn: blocks of rows are
// unpacked as they come in sight, and let go of behind it. CELL and ROW, the width of a cycle and the height of a row in pixels, and labels.js
// stand before this.
const pins = document.getElementById('pins'), told = document.getElementById('told'), follow = document.getElementById('follow');
const NEAR = 30;  // so many rows above and below what is in sight are there, too

async function unpacked(text) {
  const bytes = Uint8Array.from(atob(text), one => one.charCodeAt(0));
  return new Response(new Blob([bytes]).stream().pipeThrough(new DecompressionStream('gzip'))).text();
}
function summed(steps) { let sum = 0; return Float64Array.from(steps, step => sum += step); }

class Whole {
  constructor(chart, packed) {
    Object.assign(this, packed);
    this.chart = chart;
    [this.numbers, this.labels, this.cells] = ['.numbers', '.labels', '.cells'].map(name => chart.querySelector(name));
    this.column = chart.querySelector('.column');
    this.first = +chart.dataset.first; this.last = +chart.dataset.last;
    this.drawn = new Map(); this.pinned = new Map(); this.sought = -1; this.from = [];
  }
  async begin() {
    const found = JSON.parse(await unpacked(this.found));
    this.place = found.place; this.places = found.places; this.fills = found.fills;
    this.serial = summed(found.serial); this.from = summed(found.from);
    this.to = this.from.map((from, row) => from + found.lasts[row]);
    await this.draw();
  }
  head() { return this.numbers.getBoundingClientRect().height; }
  get top() { return Math.min(this.rows - 1, Math.max(0, Math.ceil(this.chart.scrollTop / ROW))); }
  // ---- what is in sight
  async draw() {
    const low = Math.max(0, Math.floor(this.chart.scrollTop / ROW) - NEAR);
    const high = Math.min(this.rows - 1, low + Math.ceil(this.chart.clientHeight / ROW) + 2 * NEAR);
    const wanted = new Set();
    for (let at = Math.floor(low / this.block); at <= Math.floor(high / this.block); at++) wanted.add(at);
    for (const [at, parts] of this.drawn) if (!wanted.has(at)) {
      for (const part of parts) part.remove();
      this.drawn.delete(at);
    }
    this.number();
    await Promise.all([...wanted].filter(at => !this.drawn.has(at) && at < this.blocks.length).map(at => this.add(at)));
  }
  async add(at) {
    this.drawn.set(at, []);
    const [first, text] = this.blocks[at], texts = (await unpacked(text)).split('\0');
    if (!this.drawn.has(at) || this.drawn.get(at).length) return;
    const parts = [this.labels, this.cells].map((into, side) => {
      const part = document.createElement('div');
      part.className = 'block';
      part.style.top = at * this.block * ROW + 'px';
      part.style.left = side * (first - this.first) * CELL + 'px';
      part.innerHTML = texts[side];
      into.append(part);
      return part;
    });
    this.drawn.set(at, parts);
    this.mark(at);
  }
  // the numbers of the cycles in sight, and the lines that come to the cache in them
  number() {
    const low = Math.max(this.first, this.first + Math.floor(this.chart.scrollLeft / CELL) - 20);
    const high = Math.min(this.last, low + Math.ceil(this.chart.clientWidth / CELL) + 40), texts = [];
    for (let cycle = Math.ceil(low / 5) * 5; cycle <= high; cycle += 5)
      texts.push(`<span style="left:${(cycle - this.first) * CELL - 30}px">${cycle}</span>`);
    for (const [cycle, line] of this.fills || []) if (low <= cycle && cycle <= high)
      texts.push(`<b style="left:${(cycle - this.first) * CELL}px" title="line ${line.toString(16).padStart(8, '0')} comes in cycle ${cycle}">L</b>`);
    this.numbers.innerHTML = texts.join('');
  }
  rowOf(row, side) {
    const parts = this.drawn.get(Math.floor(row / this.block)) || [];
    return parts.length ? parts[side].querySelector(`g[data-row="${row}"]`) : null;
  }
  // what is pinned or sought keeps its colour when its block comes again
  mark(at) {
    for (const row of [...this.pinned.keys(), this.sought]) if (Math.floor(row / this.block) === at) this.paint(row);
  }
  paint(row) {
    const [label, cells] = [this.rowOf(row, 0), this.rowOf(row, 1)];
    if (!label) return;
    label.classList.toggle('held', this.pinned.has(row));
    label.setAttribute('aria-pressed', this.pinned.has(row));
    cells.classList.toggle('pinned', this.pinned.has(row));
    label.classList.toggle('sought', this.sought === row);
    cells.classList.toggle('found', this.sought === row);
  }
  // ---- rows by cycle, serial, address and name
  rowAt(cycle) {
    const row = this.from.findIndex((from, at) => from <= cycle && cycle <= this.to[at]);
    return row < 0 ? Math.max(0, this.from.findIndex(from => from >= cycle)) : row;
  }
  rowNamed(text, behind) {
    const serial = /^#(\d+)$/.exec(text);
    if (serial) return this.serial.findIndex(one => one === +serial[1]);
    const address = text.toLowerCase().replace(/^0x/, '').padStart(8, '0'), places = new Set();
    this.places.forEach(([pc, symbol], at) => {
      const name = symbol.replace(/\+0x[0-9a-f]+$/, '');
      if ([symbol, name, name.split('(')[0], name.split('.')[0]].includes(text) || pc === address) places.add(at);
    });
    const next = this.place.findIndex((place, row) => row > behind && places.has(place));
    return next < 0 ? this.place.findIndex(place => places.has(place)) : next;
  }
  async show(row, cycle) {
    const labels = widthOf(this.chart), quarter = (this.chart.clientHeight - this.head()) / 4;
    lead(this);
    this.chart.scrollTop = Math.max(0, row * ROW - quarter);
    this.chart.scrollLeft = Math.max(0, (cycle - this.first) * CELL - (this.chart.clientWidth - labels) / 4);
    this.seen = this.chart.scrollTop;
    await this.draw();
  }
  async find(row) {
    const before = this.sought;
    this.sought = row;
    if (before >= 0) this.paint(before);
    await this.show(row, Math.max(this.first, this.from[row]));
    this.paint(row);
  }
  point(cycle) {
    this.column.hidden = cycle === null;
    if (cycle !== null) this.column.style.left = (cycle - this.first) * CELL + 'px';
  }
}
const wholes = charts.map((chart, at) => new Whole(chart, JSON.parse(document.querySelectorAll('.packed')[at].textContent)));
function wholeOf(one) { return wholes[charts.indexOf(one.closest('.chart'))]; }

// ---- panels move together: the one that is moved leads, until it has stood still for a moment. Its cycles follow its rows, and the other
// panel stands at the row of the same cycle
let leader = null, still = 0;
function lead(whole) {
  leader = whole;
  clearTimeout(still);
  still = setTimeout(() => { leader = null; }, 120);
}
function moved(whole) {
  if (leader && leader !== whole) return;
  lead(whole);
  const rows = whole.chart.scrollTop !== whole.seen;
  whole.seen = whole.chart.scrollTop;
  if (follow.checked && rows && whole.from.length) whole.chart.scrollLeft = (whole.from[whole.top] - whole.first - 2) * CELL;
  for (const other of wholes) if (other !== whole && other.from.length) {
    other.chart.scrollLeft = whole.chart.scrollLeft;
    if (rows) other.chart.scrollTop = other.seen = Math.max(0, other.from.findIndex(from => from >= whole.from[whole.top])) * ROW;
  }
}
let waiting = false;
for (const whole of wholes) whole.chart.addEventListener('scroll', () => {
  moved(whole);
  if (waiting) return;
  waiting = true;
  requestAnimationFrame(() => { waiting = false; for (const one of wholes) one.draw(); });
});
addEventListener('resize', () => { for (const whole of wholes) whole.draw(); });

// ---- pins: the times of the rows that were touched, each with its panel, in a box below
function pin(whole, row) {
  if (!whole.pinned.delete(row)) whole.pinned.set(row, whole.rowOf(row, 1).querySelector('title').textContent);
  whole.paint(row);
  pins.replaceChildren(...wholes.flatMap(one => [...one.pinned].map(([at, times]) => {
    const text = document.createElement('pre'), panel = one.chart.dataset.title;
    text.textContent = (panel && panel + ' \u2014 ') + times;
    text.onclick = () => pin(one, at);
    return text;
  })));
  document.body.style.paddingBottom = pins.offsetHeight + 12 + 'px';
}
for (const whole of wholes) for (const part of [whole.labels, whole.cells]) part.addEventListener('click', event => {
  const row = event.target.closest('g[data-row]');
  if (row) pin(whole, +row.dataset.row);
});
// by keyboard: Tab reaches each panel's labels, arrows go from row to row, Enter or the space bar pins
const STEPS = {ArrowDown: 1, ArrowUp: -1, PageDown: 20, PageUp: -20, Home: -Infinity, End: Infinity};
for (const whole of wholes) {
  whole.labels.tabIndex = 0;
  whole.labels.setAttribute('aria-label', 'instructions: arrows go from one to the next, Enter pins');
  whole.labels.addEventListener('keydown', async event => {
    const at = whole.sought < 0 ? whole.top : whole.sought;
    if (event.key in STEPS) {
      event.preventDefault();
      await whole.find(Math.max(0, Math.min(whole.rows - 1, whole.sought < 0 ? at : at + STEPS[event.key])));
    } else if (event.key === 'Enter' || event.key === ' ') {
      event.preventDefault();
      pin(whole, at);
    }
  });
}
document.addEventListener('keydown', event => {
  if (event.key === 'Escape') for (const whole of wholes) for (const row of [...whole.pinned.keys()]) pin(whole, row);
});

// ---- where one goes to
async function goToCycle(whole, cycle) {
  if (cycle < whole.first || cycle > whole.last) return false;
  whole.point(cycle);
  const marked = cycle === +whole.chart.dataset.mark ? whole.rowNamed('#' + whole.chart.dataset.serial, -1) : -1;
  const row = marked < 0 ? whole.rowAt(cycle) : marked;
  if (marked >= 0) await whole.find(row);
  await whole.show(row, cycle);
  return true;
}
async function goToRow(whole, text) {
  const row = whole.rowNamed(text, whole.sought);
  if (row < 0) return false;
  whole.point(null);
  await whole.find(row);
  return true;
}
async function go(text) {
  told.textContent = '';
  text = text.trim();
  if (!text) return;
  const there = [];
  for (const whole of wholes) there.push(await (/^\d+$/.test(text) ? goToCycle(whole, +text) : goToRow(whole, text)));
  if (!there.includes(true)) told.textContent = text + ' isn\u2019t on this page (cycles ' + wholes[0].first + ' to ' + wholes[0].last + ')';
}
document.querySelector('form').addEventListener('submit', event => {
  event.preventDefault();
  go(document.getElementById('where').value);
});
function asked(hash) { return decodeURIComponent(hash.slice(1)); }
for (const link of document.querySelectorAll('a.go')) link.addEventListener('click', () => go(asked(link.hash)));
addEventListener('hashchange', () => go(asked(location.hash)));
// opens at what the address names, else at the first unequal cycle
const ready = Promise.all(wholes.map(whole => whole.begin())).then(() => {
  const mark = charts[0].dataset.mark;
  if (location.hash) return go(asked(location.hash));
  if (mark && wholes.some(whole => whole.first <= mark && mark <= whole.last)) return go(mark);
});
