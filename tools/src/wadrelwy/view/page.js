// What the page of `view html` does: panels move together, one goes to a cycle, an instruction or a function, rows are pinned.
// CELL and ROW, the width of a cycle and the height of a row in pixels, and labels.js stand before this.
const pins = document.getElementById('pins'), told = document.getElementById('told');

// ---- panels move together: the one that is moved leads, until it has stood still for a moment
let leader = null, still = 0;
function lead(chart) {
  leader = chart;
  clearTimeout(still);
  still = setTimeout(() => { leader = null; }, 80);
}
for (const chart of charts) chart.addEventListener('scroll', () => {
  if (leader && leader !== chart) return;
  lead(chart);
  for (const other of charts) if (other !== chart) {
    other.scrollLeft = chart.scrollLeft;
    other.scrollTop = chart.scrollTop;
  }
});

// ---- pins: the times of the rows that were touched, each with its panel, in a box below
function rows(chart) { return [...chart.querySelectorAll('g[data-n]')]; }
function labels(chart) { return [...chart.querySelectorAll('.label')]; }
function chartOf(one) { return one.closest('.chart'); }
function beside(one, all) { return all(chartOf(one)).find(other => other.dataset.row === one.dataset.row); }
function pin(row) {
  const pinned = row.classList.toggle('pinned'), label = beside(row, labels);
  label.setAttribute('aria-pressed', pinned);
  label.classList.toggle('held', pinned);
  pins.replaceChildren(...[...document.querySelectorAll('.pinned')].map(one => {
    const text = document.createElement('pre'), panel = chartOf(one).dataset.title;
    text.textContent = (panel && panel + ' \u2014 ') + one.querySelector('title').textContent;
    text.onclick = () => pin(one);
    return text;
  }));
  document.body.style.paddingBottom = pins.offsetHeight + 12 + 'px';
}
// of each panel one label is reached by Tab, from which arrows go to the others; Enter or the space bar pins
function reach(label) {
  for (const other of labels(chartOf(label))) other.setAttribute('tabindex', other === label ? 0 : -1);
}
function step(label, by) {
  const all = labels(chartOf(label)), to = all[Math.max(0, Math.min(all.length - 1, all.indexOf(label) + by))];
  const chart = chartOf(to), head = chart.querySelector('.numbers').getBoundingClientRect().height, top = +to.dataset.row * ROW;
  reach(to);
  to.focus({preventScroll: true});
  lead(chart);
  chart.scrollTop = Math.min(top, Math.max(chart.scrollTop, top + head + 3 * ROW - chart.clientHeight));
}
const STEPS = {ArrowDown: 1, ArrowUp: -1, PageDown: 20, PageUp: -20, Home: -Infinity, End: Infinity};
for (const chart of charts) {
  for (const row of rows(chart)) row.addEventListener('click', () => pin(row));
  for (const label of labels(chart)) {
    label.addEventListener('click', () => pin(beside(label, rows)));
    label.addEventListener('keydown', event => {
      if (event.key in STEPS) step(label, STEPS[event.key]);
      else if (event.key === 'Enter' || event.key === ' ') pin(beside(label, rows));
      else return;
      event.preventDefault();
    });
  }
  if (labels(chart).length) reach(labels(chart)[0]);
}
document.addEventListener('keydown', event => {
  if (event.key === 'Escape') for (const row of document.querySelectorAll('.pinned')) pin(row);
});

// ---- where one goes to
function show(chart, cycle, row) {
  const labels = chart.querySelector('.labels').getBoundingClientRect().width;
  const head = chart.querySelector('.numbers').getBoundingClientRect().height;
  lead(chart);
  chart.scrollLeft = (cycle - chart.dataset.first) * CELL - Math.max(0, (chart.clientWidth - labels) / 4);
  if (row !== null) chart.scrollTop = row * ROW - Math.max(0, (chart.clientHeight - head) / 4);
}
function clear() {
  for (const row of document.querySelectorAll('.found')) row.classList.remove('found');
  for (const label of document.querySelectorAll('.sought')) label.classList.remove('sought');
  for (const column of document.querySelectorAll('.column')) column.setAttribute('visibility', 'hidden');
  told.textContent = '';
}
// of the first unequal cycle the row that is unequal, else the oldest that is there
function rowAt(chart, cycle) {
  const there = rows(chart).filter(one => +one.dataset.from <= cycle && cycle <= +one.dataset.to);
  const unequal = cycle === +chart.dataset.mark && there.find(one => one.dataset.s === chart.dataset.serial);
  return unequal || there[0];
}
function find(row) {
  row.classList.add('found');
  beside(row, labels).classList.add('sought');
  reach(beside(row, labels));
}
function goToCycle(chart, cycle) {
  const first = +chart.dataset.first;
  if (cycle < first || cycle > +chart.dataset.last) return false;
  const row = rowAt(chart, cycle);
  if (row && row.dataset.s === chart.dataset.serial && cycle === +chart.dataset.mark) find(row);
  else if (row) reach(beside(row, labels));
  const column = chart.querySelector('.column');
  column.setAttribute('x', (cycle - first) * CELL);
  column.setAttribute('visibility', 'visible');
  show(chart, cycle, row ? +row.dataset.row : null);
  return true;
}
function named(row, text) {
  const address = text.toLowerCase().replace(/^0x/, '').padStart(8, '0');
  const symbol = row.dataset.n, name = symbol.replace(/\+0x[0-9a-f]+$/, '');
  return '#' + row.dataset.s === text || [symbol, name, name.split('(')[0], name.split('.')[0]].includes(text) || row.dataset.a === address;
}
function goToRow(chart, text) {
  const row = rows(chart).find(one => named(one, text));
  if (!row) return false;
  find(row);
  show(chart, Math.max(+chart.dataset.first, +row.dataset.from), +row.dataset.row);
  return true;
}
function go(text) {
  clear();
  text = text.trim();
  if (!text) return;
  const there = charts.map(chart => /^\d+$/.test(text) ? goToCycle(chart, +text) : goToRow(chart, text));
  if (!there.includes(true)) told.textContent = text + ' isn\u2019t on this page (cycles ' + charts[0].dataset.first + ' to '
    + charts[0].dataset.last + '); make one that has it by --from';
}
document.querySelector('form').addEventListener('submit', event => {
  event.preventDefault();
  go(document.getElementById('where').value);
});
for (const link of document.querySelectorAll('a.go')) link.addEventListener('click', () => go(asked(link.hash)));
addEventListener('hashchange', () => go(asked(location.hash)));
function asked(hash) { return decodeURIComponent(hash.slice(1)); }
// opens at what the address names, else at the first unequal cycle, if that is on the page
const mark = charts[0].dataset.mark;
if (location.hash) go(asked(location.hash));
else if (mark && charts.some(chart => +chart.dataset.first <= mark && mark <= +chart.dataset.last)) go(mark);
