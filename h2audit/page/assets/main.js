// Puts the charts into the page, those with trouble first, and draws each when it comes into sight.

const AT_ONCE = 6, MORE = 12, MOST_LINES = 500;
const KEYS = {
  "+": chart => chart.zoom(0.5), "=": chart => chart.zoom(0.5), "-": chart => chart.zoom(2),
  ArrowLeft: chart => chart.move(-0.25), ArrowRight: chart => chart.move(0.25), "0": chart => chart.graph.resetZoom(),
  ArrowUp: chart => chart.stretch(0.25), ArrowDown: chart => chart.stretch(4),
  PageUp: chart => chart.step(-1), PageDown: chart => chart.step(1),
};
const BUTTONS = [["Zoom in", "+"], ["Zoom out", "-"], ["Left", "ArrowLeft"], ["Right", "ArrowRight"],
  ["Taller", "ArrowUp"],
  ["Lower", "ArrowDown"], ["Whole", "0"], ["Point before", "PageUp"], ["Next point", "PageDown"]];

let charts, shown = [], limit = AT_ONCE, listed = "";
const drawn = new Map();
const isByFrame = () => document.querySelector("input[name=axis]:checked").value === "frame";
const sight = new IntersectionObserver(seen => seen.filter(one => one.isIntersecting).forEach(one => draw(one.target)),
  { rootMargin: "200px" });

function make(name, content = "", more = {}) {
  return Object.assign(document.createElement(name), { textContent: content, ...more });
}

// The figure of a window; the windows of a request have another one, whose name begins by its place.
function figureOf(one, place = "") {
  const figure = make("figure", "", { id: `${place}chart-${one.number}`, tabIndex: 0 });
  figure.dataset.window = one.number;
  figure.className = one.faults || one.stalls ? "window" : "window calm";
  const caption = make("figcaption");
  const trouble = troubleOf(one);
  caption.append(make("h3", nameOf(one)), make("p", `${trouble}. Client ${one.client}, server ${one.server}.`));
  const ariaLabel = `Credit of the ${one.side}: ${trouble}`;
  const plot = make("div", "", { className: "plot", role: "img", ariaLabel });
  const keys = make("p", "", { className: "keys" });
  keys.append(...BUTTONS.map(([name, key]) =>
    make("button", name, { type: "button", onclick: () => press(figure, key) })));
  figure.append(caption, plot, make("output", "", { ariaLive: "polite" }), keys);
  figure.addEventListener("keydown", event => {
    if (event.target !== figure || !(event.key in KEYS) || event.ctrlKey || event.altKey || event.metaKey) return;
    event.preventDefault();
    press(figure, event.key);
  });
  return figure;
}

function press(figure, key) {
  KEYS[key](draw(figure));
}

// The chart of a figure, which is drawn now if it was not.
function draw(figure) {
  if (!drawn.has(figure.id)) {
    const one = charts.windows[Number(figure.dataset.window)];
    const chart = new Chart(figure.querySelector(".plot"), one, seriesOf(charts, one), faultLines(one), isByFrame());
    drawn.set(figure.id, chart);
  }
  return drawn.get(figure.id);
}

// The places of the faults of a window's connection: its own first, and then the others up to a bound.
function faultLines(one) {
  const places = [];
  const others = charts.windows.filter(other => other.connection === one.connection && other.faults && other !== one);
  for (const other of [one, ...others]) {
    const { frames, nanos, faults } = seriesOf(charts, other);
    faults.forEach(({ point, isDoubtful }) =>
      places.push({ frame: frames[point], nanos: nanos[point], isDoubtful }));
    if (places.length >= MOST_LINES) break;
  }
  const { elsewhere, unit } = charts;
  for (let at = 0; at < elsewhere.length; at += 4) {
    const [place, frame, time, isDoubtful] = elsewhere.slice(at, at + 4);
    if (place === one.place) places.push({ frame, nanos: time * unit, isDoubtful });
  }
  return places.slice(0, MOST_LINES);
}

function list() {
  const want = asked();
  listed = JSON.stringify(want);
  falls?.list(want);
  shown = charts.windows.filter(one => isWindowAsked(one, want));
  const rows = filterRows(want);
  const windows = `${grouped(shown.length)} of ${counted(charts.windows.length, "window")}`;
  field("found").textContent = `${windows}, ${counted(rows, "finding")}`;
  limit = AT_ONCE;
  place();
}

// Takes away the charts whose names begin so.
function forget(place) {
  for (const [id, chart] of drawn) {
    if (!id.startsWith(place)) continue;
    chart.graph.destroy();
    drawn.delete(id);
  }
}

const moreWindows = rest => `Show ${Math.min(rest, MORE)} of ${counted(rest, "window")} more`;

// Shows the first of the windows that were asked for, and a button for more of them.
function place() {
  sight.disconnect();
  forget("chart-");
  const figures = shown.slice(0, limit).map(one => figureOf(one));
  const rest = shown.length - figures.length;
  const more = rest > 0 ? [make("button", moreWindows(rest), { type: "button", id: "more", onclick: showMore })] : [];
  field("windows").replaceChildren(...figures, ...more);
  figures.forEach(figure => sight.observe(figure));
}

function showMore() {
  const rest = shown.length - limit;
  const added = shown.slice(limit, limit + MORE).map(one => figureOf(one));
  limit += MORE;
  field("more").before(...added);
  added.forEach(figure => sight.observe(figure));
  if (rest <= MORE) field("more").remove();
  else field("more").textContent = moreWindows(rest - MORE);
  added[0].focus();
}

// From a finding to its place: the chart of its window or, where there is none, of its connection.
function go(row) {
  const { connection, side, stream, frame } = row.dataset;
  const ofConnection = charts.windows.filter(one => String(one.connection) === connection);
  const one = ofConnection.find(one => one.side === side && String(one.stream) === stream)
    ?? ofConnection.find(one => one.side === side && one.stream === 0) ?? ofConnection[0];
  if (!one) return false;
  if (!field(`chart-${one.number}`)) {
    shown = [one, ...shown.filter(other => other !== one)];
    place();
  }
  const figure = field(`chart-${one.number}`);
  figure.scrollIntoView({ block: "center" });
  figure.focus({ preventScroll: true });
  draw(figure).show(Number(frame));
  return true;
}

// A field says that it has changed while it is typed in and once more when it is left.
function choose(control) {
  const want = JSON.stringify(asked());
  if (control.name === "axis") drawn.forEach(chart => chart.setAxis(isByFrame()));
  else if (want !== listed) list();
}

function listen() {
  for (const kind of ["input", "change"]) field("filters").addEventListener(kind, event => choose(event.target));
  field("filters").addEventListener("submit", event => event.preventDefault());
  document.addEventListener("click", event => {
    const row = event.target.closest("tr[data-frame]");
    if (row && !String(getSelection()) && go(row)) event.preventDefault();
  });
  matchMedia("(prefers-color-scheme: dark)").addEventListener("change", () => drawn.forEach(chart => chart.draw()));
  addEventListener("beforeprint", () => print(true));
  addEventListener("afterprint", () => print(false));
}

// On paper all charts that are listed stand drawn, in light colours, and as wide as any paper is.
function print(isPrinted) {
  document.documentElement.toggleAttribute("data-printing", isPrinted);
  if (isPrinted) document.querySelectorAll("figure.window").forEach(draw);
  drawn.forEach(chart => chart.fit(isPrinted));
  falls?.print(isPrinted);
}

async function start() {
  charts = await unpackedCharts();
  await startWaterfall();
  offerKinds(charts);
  document.querySelectorAll("#connections table").forEach(makeSortable);
  field("no-charts").hidden = true;
  field("filters").hidden = field("help").hidden = false;
  listen();
  list();
  document.documentElement.dataset.ready = "true";
}

start().catch(why => {
  field("no-charts").textContent = `The charts cannot be shown in this browser: ${why.message}`;
});
