// The waterfall: a row for each request, drawn as it comes into sight, and as high as its sentences. Its scale, axis
// and zoom are those of the curve above it, which dygraphs draws.

const AHEAD = 6, MOST_POINTS = 1500, PRINTED_ROWS = 40, NARROW = 700, LANES_WIDE = 50;

let falls = null;

class Waterfall {
  constructor(said) {
    const requests = said.requests.map(one => ({ ...one, connection: said.connections[one.of] }));
    const connections = said.connections.map(one => ({ ...one, isConnection: true, connection: one }));
    Object.assign(this, { kinds: said.kinds, whose: said.whose, requests, connections, listed: [], tops: [0], chosen: 0,
      made: new Map(), whoseWords: said.whoseWords });
    offerWhose(requests);
    this.box = field("rows");
    this.space = field("space");
    this.box.addEventListener("scroll", () => this.later());
    this.box.addEventListener("keydown", event => this.key(event));
    this.box.addEventListener("click", event => {
      const row = event.target.closest(".row");
      if (row) this.open(Number(row.dataset.at));
    });
    for (const name of ["order", "held", "scale"]) field(name).addEventListener("change", () => list());
    document.querySelectorAll("[data-zoom]").forEach(button =>
      button.addEventListener("click", () => this.zoom(button.dataset.zoom)));
    new ResizeObserver(() => this.resized()).observe(this.box);
  }

  // Where a request begins on the axis.
  begin(one) {
    const scale = field("scale").value;
    const ofConnection = scale === "capture" ? one.connection.begin : 0;
    if (one.isConnection) return ofConnection;
    return scale === "own" ? 0 : ofConnection + one.begin;
  }

  // The rows that were asked for: each connection, and then its requests, by the order of the first of them.
  list(want) {
    const held = field("held").value, order = field("order").value;
    const keys = { rank: one => one.rank, time: one => one.connection.begin + one.begin, life: one => -one.nanos };
    const key = keys[order];
    const groups = new Map();
    const found = this.requests.filter(one => isRequestAsked(one, want, held)).sort((a, b) => key(a) - key(b));
    for (const one of found) {
      if (!groups.has(one.of)) groups.set(one.of, []);
      groups.get(one.of).push(one);
    }
    const isOwn = field("scale").value === "own";
    this.listed = [...groups].flatMap(([of, rows]) => isOwn ? rows : [this.connections[of], ...rows]);
    this.chosen = Math.min(1, this.listed.length - 1);
    field("rows-found").textContent = `${grouped(found.length)} of ${counted(this.requests.length, "request")}`;
    this.clear();
    this.overview(found);
    this.measure();
    this.box.scrollTop = 0;
    this.show();
  }

  // Where each row begins: once for each width they stand below each other, out of sight, as they will be seen.
  measure() {
    const ruler = make("div", "", { className: "ruler" }), area = this.graph.getArea();
    const others = this.listed.filter(one => one.wide !== this.wide);
    ruler.append(...others.map(one => this.words(one, area)));
    this.space.replaceChildren(ruler);
    const heights = [...ruler.children].map(row => row.getBoundingClientRect().height);
    others.forEach((one, at) => Object.assign(one, { wide: this.wide, height: heights[at] }));
    ruler.remove();
    let top = 0;
    this.tops = [0, ...this.listed.map(one => top += one.height)];
    this.space.style.height = `${top}px`;
  }

  // The last row that begins at a height or above it.
  rowAt(height) {
    let first = 0, last = Math.max(this.listed.length - 1, 0);
    while (first < last) {
      const middle = Math.ceil((first + last) / 2);
      if (this.tops[middle] <= height) first = middle;
      else last = middle - 1;
    }
    return first;
  }

  // The curve of how many requests were under way: what dygraphs zooms, and what the bars are measured by.
  overview(found) {
    const end = this.listed.reduce((most, one) => Math.max(most, this.begin(one) + one.nanos), 1);
    [this.unit, this.size] = UNITS.find(([, size]) => end >= size) ?? UNITS[3];
    const colour = colours(), from = { own: "its opening", capture: "the first SYN" }[field("scale").value];
    const label = `${this.unit} since ${from ?? "the SYN of the connection"}`;
    this.wide = this.box.clientWidth;
    field("overview").style.width = `${this.wide}px`; // as wide as the rows, which have a bar to scroll beside them
    this.isNarrow = this.wide < NARROW;
    this.box.classList.toggle("narrow", this.isNarrow);
    this.graph?.destroy();
    this.graph = new Dygraph(field("overview"), underWay(found, one => this.begin(one), end, this.size), {
      labels: [label, "under way"], colors: [colour.line], stepPlot: true, fillGraph: true, xlabel: label,
      includeZero: true, xLabelHeight: 18, gridLineColor: colour.grid, axisLineColor: colour.text, strokeWidth: 1.4,
      dateWindow: [-end / this.size / 100, end * 1.02 / this.size],
      axes: {
        x: { axisLabelFormatter: grouped, axisLabelWidth: 90 },
        y: { axisLabelFormatter: value => Number.isInteger(value) ? grouped(value) : "", drawGrid: false,
          axisLabelWidth: this.isNarrow ? 40 : Math.round(this.wide * 0.38) },
      },
      drawCallback: (graph, isFirst) => { if (!isFirst) this.redraw(); },
    });
    this.whole = this.graph.xAxisRange();
  }

  zoom(how) {
    const [least, most] = this.graph.xAxisRange(), wide = most - least;
    const to = {
      in: [least + wide / 4, most - wide / 4], out: [least - wide / 2, most + wide / 2],
      left: [least - wide / 4, most - wide / 4], right: [least + wide / 4, most + wide / 4], whole: this.whole,
    }[how];
    this.graph.updateOptions({ dateWindow: to });
  }

  clear() {
    this.made.forEach(row => row.remove());
    this.made.clear();
  }

  redraw() {
    this.clear();
    this.show();
  }

  later() {
    this.due ??= requestAnimationFrame(() => {
      this.due = null;
      this.show();
    });
  }

  resized() {
    const isPrinted = document.documentElement.hasAttribute("data-printing");
    if (!this.graph || isPrinted || this.wide === this.box.clientWidth || !this.box.clientWidth) return;
    this.list(asked());
  }

  // Makes the rows that are in sight or near, and takes the others away, but for one that has the focus.
  show() {
    const { scrollTop, clientHeight } = this.box;
    const first = Math.max(0, this.rowAt(scrollTop) - AHEAD);
    const last = Math.min(this.listed.length, this.rowAt(scrollTop + clientHeight) + 1 + AHEAD);
    this.made.forEach((row, at) => {
      if ((at < first || at >= last) && !row.contains(document.activeElement)) {
        row.remove();
        this.made.delete(at);
      }
    });
    for (let at = first; at < last; at += 1) this.row(at);
  }

  row(at) {
    if (this.made.has(at)) return this.made.get(at);
    const one = this.listed[at], area = this.graph.getArea(), row = this.words(one, area);
    row.dataset.at = at;
    row.setAttribute("role", "listitem");
    row.setAttribute("aria-posinset", at + 1);
    row.setAttribute("aria-setsize", this.listed.length);
    row.style.top = `${this.tops[at]}px`;
    const button = row.querySelector("button");
    button.ariaLabel = wordsOfRow(one);
    button.tabIndex = at === this.chosen ? 0 : -1;
    this.bars(row.querySelector("svg"), one, area);
    this.space.append(row);
    this.made.set(at, row);
    return row;
  }

  // A row without its bars: what it is called, the place of the bars, and what is said of it, which its button's name
  // says too.
  words(one, area) {
    const isBoth = hasLegs(one), high = heightOf(one, this.requests);
    const row = make("div", "", { className: one.isConnection ? "row connection-row" : "row" });
    const button = make("button", "", { type: "button" });
    button.style.width = this.isNarrow ? "100%" : `${area.x - (isBoth ? LANES_WIDE : 6)}px`;
    const facts = make("span", factsOf(one, "\u00a0"), { className: "facts" });
    button.append(make("span", titleOf(one), { className: "title" }), facts);
    row.append(button);
    const lanes = make("div", "", { className: "drawn" });
    lanes.style[this.isNarrow ? "marginLeft" : "left"] = `${area.x}px`;
    if (isBoth) lanes.append(lanesOf(one));
    svg("svg", { width: Math.max(area.w, 1), height: high, "aria-hidden": "true" }, lanes);
    row.append(lanes);
    if (isBoth && !this.isNarrow) row.prepend(roomOf(high));
    for (const text of sentencesOf(one)) row.append(make("p", text, { ariaHidden: "true" }));
    return row;
  }

  bars(drawing, one, area) {
    const x = nanos => this.graph.toDomXCoord(nanos / this.size) - area.x;
    const begin = this.begin(one), end = x(begin + one.nanos);
    svg("line", { class: "life", x1: x(begin), x2: end, y1: 13, y2: 13 }, drawing);
    ["client", "server"].forEach((side, lane) => {
      const spans = one.isConnection ? stallSpans(one.stalls[side]) : spansOf(one[side].spans, this.kinds);
      drawLane(drawing, spans, { x, begin, wide: area.w }, lane * LANE);
    });
    if (hasLegs(one)) drawLegs(drawing, one, { ...this, x, begin, wide: area.w });
    const start = one.isConnection ? 0 : one.begin;
    for (const [nanos, , isCertain] of one.marks) cut(drawing, x(begin + nanos - start), isCertain);
    if (one.isConnection) return;
    if (one.hung) svg("path", { class: "mark hung", d: `M${end - 5} 7L${end + 5} 13L${end - 5} 19Z` }, drawing);
    else if (one.how === "RST_STREAM") svg("path", { class: "mark reset", d: `M${end} 7l6 6l-6 6l-6 -6Z` }, drawing);
    else svg("line", { class: "mark end", x1: end, x2: end, y1: 2, y2: 24 }, drawing);
  }

  key(event) {
    const by = { ArrowDown: 1, ArrowUp: -1, PageDown: 10, PageUp: -10, Home: -Infinity, End: Infinity }[event.key];
    if (!by || event.ctrlKey || event.altKey || event.metaKey) return;
    event.preventDefault();
    this.choose(Math.min(Math.max(this.chosen + by, 0), this.listed.length - 1));
  }

  // Moves the focus to a row, and the row into sight.
  choose(at) {
    const before = this.made.get(this.chosen);
    if (before) before.querySelector("button").tabIndex = -1;
    this.chosen = at;
    const { scrollTop, clientHeight } = this.box, [top, end] = this.tops.slice(at, at + 2);
    if (end > scrollTop + clientHeight) this.box.scrollTop = end - clientHeight;
    if (top < this.box.scrollTop) this.box.scrollTop = top;
    const button = this.row(at).querySelector("button");
    button.tabIndex = 0;
    button.focus({ preventScroll: true });
    this.show();
  }

  open(at) {
    this.choose(at);
    openRequest(this.listed[at]);
  }

  print(isPrinted) {
    this.box.classList.toggle("printed", isPrinted);
    field("overview").classList.toggle("printed", isPrinted);
    this.list(asked());
    field("rows-printed").hidden = true;
    if (!isPrinted) return;
    const rows = Math.min(this.listed.length, PRINTED_ROWS);
    field("rows-printed").hidden = rows === this.listed.length;
    field("rows-printed").textContent = `The first ${rows} of ${grouped(this.listed.length)} rows.`;
    this.clear();
    for (let at = 0; at < rows; at += 1) this.row(at);
  }
}

// How many requests are under way after each beginning and each end; of very many points some are left out.
function underWay(requests, beginOf, end, size) {
  const steps = requests.flatMap(one => [[beginOf(one), 1], [beginOf(one) + one.nanos, -1]]);
  steps.sort((one, other) => one[0] - other[0]);
  const points = [[0, 0]];
  let number = 0;
  for (const [time, by] of steps) {
    number += by;
    if (points.at(-1)[0] === time / size) points.at(-1)[1] = number;
    else points.push([time / size, number]);
  }
  points.push([Math.max(end / size, points.at(-1)[0]), number]);
  const every = Math.ceil(points.length / MOST_POINTS);
  return points.filter((point, at) => at % every === 0 || at === points.length - 1);
}

const titleOf = one => one.isConnection ? `Connection ${one.number}` : one.name;

// What stands behind a title; what belongs together of it may be kept on one line.
function factsOf(one, blank = " ") {
  if (one.isConnection) return `${one.client} to ${one.server}`;
  const words = [`stream ${one.stream}`, one.status, duration(rounded(one.nanos))];
  return words.concat(one.ask ? `ask the ${one.ask}` : []).map(fact => fact.replaceAll(" ", blank)).join(" · ");
}

// What is said of both legs, what held it back, and its whole life where that has several parts.
const sentencesOf = one => one.isConnection ? [] : [legsWords(one), one.text, one.life].filter(text => text);

// Four digits are enough for a row.
const rounded = nanos => Number(nanos.toPrecision(4));

function wordsOfRow(one) {
  const doubtful = one.marks.filter(([, , isCertain]) => !isCertain).length;
  const faults = one.marks.length ? `, ${faultsWords(one.marks.length, doubtful)}` : "";
  if (one.isConnection) {
    return `Connection ${one.number}, ${factsOf(one)}, ${duration(rounded(one.nanos))}${faults}`;
  }
  const words = [factsOf(one), ...sentencesOf(one)].join(" · ");
  return `${one.name}, connection ${one.connection.number}, ${words}${one.hung ? ", hung" : ""}${faults}`;
}

const STREAM_STALL = 2, CONNECTION_STALL = 3;
const isStalled = ({ spans }) =>
  spans.some((kind, at) => at % 2 && (kind === STREAM_STALL || kind === CONNECTION_STALL));

function isRequestAsked(one, want, held) {
  one.words ??= `${wordsOfRow(one)} connection ${one.connection.number}, stream ${one.stream} ${one.connection.client} `
    .concat(`${one.connection.server} ${one.ended} ${one.marks.map(mark => mark[1]).join(" ")}`).toLowerCase();
  const { kind, side } = want;
  return (!want.words || want.finds(one.words))
    && (!side || (one.side ? one.side === side : one[side].content > 0))
    && (!want.stream || String(one.stream) === want.stream)
    && (!kind || (kind === "fault" ? one.marks.length > 0
      : kind === "stall" ? isStalled(one.client) || isStalled(one.server) : one.marks.some(mark => mark[1] === kind)))
    && isHeldBy(one, held);
}

function isHeldBy(one, held) {
  if (held.startsWith("who-")) return isHeldAtProxy(one, held.slice(4));
  return !held || (held === "hung" ? one.hung : one.cause === held);
}

// Below the rows: what held a request back, its findings, and the charts of its windows.
function openRequest(one) {
  const panel = field("request"), connection = one.connection.number, stream = one.isConnection ? 0 : one.stream;
  closeRequest();
  const close = make("button", "Close", { type: "button", onclick: () => leaveRequest() });
  const name = one.isConnection ? titleOf(one) : `${one.name}, stream ${stream} of connection ${connection}`;
  const head = make("h3", name, { tabIndex: -1 });
  const words = one.isConnection ? [`Client ${one.client}, server ${one.server}.`]
    : [...sentencesOf(one).map(asSentence), one.ask ? `Ask the ${one.ask}.` : "", `Opened in ${one.packet}.`];
  const charted = charts.windows.filter(window => window.connection === connection
    && (window.stream === stream || (window.stream === 0 && (one.isConnection || window.stalls || window.faults))));
  const figures = charted.map(window => figureOf(window, "request-"));
  const beside = make("div", "", { className: "beside" });
  beside.append(make("div"), make("div"));
  beside.firstChild.append(make("p", [...words, asSentence(one.ended)].join(" ")), whoseTable(one, falls.whoseWords),
    otherLegs(one), findingsOf(connection, stream));
  beside.lastChild.append(...figures);
  panel.append(head, close, beside);
  panel.hidden = false;
  figures.forEach(draw);
  head.focus({ preventScroll: true });
  panel.scrollIntoView({ block: "nearest" });
}

const asSentence = text => `${text[0].toUpperCase()}${text.slice(1)}.`;

// Back to the row from which it was opened.
function leaveRequest() {
  closeRequest();
  falls.choose(falls.chosen);
}

function closeRequest() {
  forget("request-");
  field("request").replaceChildren();
  field("request").hidden = true;
}

// The rows of the tables below that are about a stream or about the connection's window, once more.
function findingsOf(connection, stream) {
  const place = `section.connection tr[data-connection="${connection}"]`;
  const rows = document.querySelectorAll(`${place}[data-stream="${stream}"], ${place}[data-stream="0"]`);
  if (!rows.length) return make("p", "No finding of it stands in the tables of this page.");
  const ariaLabel = "Findings of its windows";
  const box = make("div", "", { className: "scroll", tabIndex: 0, role: "region", ariaLabel });
  const table = rows[0].closest("table").cloneNode(true), body = table.tBodies[0];
  table.caption.textContent = ariaLabel;
  body.replaceChildren(...[...rows].map(row => Object.assign(row.cloneNode(true), { id: "", hidden: false })));
  body.querySelectorAll("[id]").forEach(row => row.removeAttribute("id"));
  box.append(table);
  return box;
}

async function startWaterfall() {
  if (!field("request-data")) return;
  falls = new Waterfall(await unpacked("request-data"));
  field("waterfall").hidden = false;
  field("requests-table").open = false;
  matchMedia("(prefers-color-scheme: dark)").addEventListener("change", () => falls.list(asked()));
}
