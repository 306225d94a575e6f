// Labels are made wider and narrower, by the buttons or by the corner above them; of each page of `view html`.
const charts = [...document.querySelectorAll('.chart')];
function widen(chart, width) {
  const whole = parseFloat(chart.style.getPropertyValue('--whole'));
  chart.classList.add('widened');
  chart.style.setProperty('--labels', Math.round(Math.max(80, Math.min(whole, width))) + 'px');
}
function widthOf(chart) { return chart.querySelector('.labels').getBoundingClientRect().width; }
function scaled(by) { for (const chart of charts) widen(chart, widthOf(chart) * by); }
document.getElementById('wider').addEventListener('click', () => scaled(1.3));
document.getElementById('narrower').addEventListener('click', () => scaled(1 / 1.3));
for (const chart of charts) {
  const corner = chart.querySelector('.corner');
  corner.addEventListener('pointerdown', event => {
    const from = event.clientX, width = widthOf(chart);
    corner.setPointerCapture(event.pointerId);
    corner.onpointermove = moved => widen(chart, width + moved.clientX - from);
    corner.onpointerup = corner.onpointercancel = () => { corner.onpointermove = null; };
  });
}
