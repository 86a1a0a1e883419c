// Both legs of a proxy in the waterfall: below what happened on the front leg whose each instant was, and below that
// the back requests that carried it, to one scale.

const WHOSE_TOP = 30, WHOSE_HIGH = 14, BACK_TOP = 49;
// A word in a bar needs so much room beside its letters.
const WORD_ROOM = 12, LETTER = 6.2;
const SHORT = { client: "client", front: "way", proxy: "proxy", other: "another request", back: "way",
  upstream: "upstream", unseen: "not seen" };
// By whom a request can be held at a proxy, for the choice above the rows.
const HELD_AT_PROXY = [["client", "its client"], ["proxy", "the proxy"], ["other", "another request"],
  ["upstream", "the upstream"]];

const hasLegs = one => Boolean(one.legs?.whose.length || one.legs?.tries.length);

// How high a row's drawing is: the back leg has a second lane where a request's content went up.
function heightOf(one, requests) {
  if (!hasLegs(one)) return 2 * LANE;
  return BACK_TOP + (one.legs.tries.length ? LANE * (hasUpload(one, requests) ? 2 : 1) : 0);
}

const hasUpload = (one, requests) => one.legs.tries.some(([, , at]) => requests[at]?.client.content > 0);

// What the lanes of a row are, before them.
function lanesOf(one) {
  const lanes = make("span", "", { className: "lanes", ariaHidden: "true" });
  const names = [["front", 7], ["whose", WHOSE_TOP], ...(one.legs.tries.length ? [["back", BACK_TOP]] : [])];
  for (const [name, top] of names) {
    const lane = make("span", name);
    lane.style.top = `${top}px`;
    lanes.append(lane);
  }
  return lanes;
}

// The words of a row stand beside and below its drawing, which may be higher than its title.
function roomOf(high) {
  const room = make("span", "", { className: "room" });
  room.style.height = `${high + 6}px`;
  return room;
}

function drawLegs(drawing, one, { x, begin, wide, kinds, whose, requests }) {
  for (const span of merged(spansOf(one.legs.whose, whose), x, begin, wide)) drawWhose(drawing, span, wide);
  const lanes = hasUpload(one, requests) ? ["client", "server"] : ["server"];
  for (const [after, nanos, at] of one.legs.tries) {
    const from = begin + after, bars = requests[at] ? lanes.map(side => spansOf(requests[at][side].spans, kinds)) : [];
    drawTry(drawing, x(from), x(from + nanos), lanes.length);
    bars.forEach((spans, lane) => drawLane(drawing, spans, { x, begin: from, wide }, BACK_TOP + LANE * lane));
    if (!bars.length) drawBar(drawing, "carried", x(from), x(from + nanos) - x(from), BACK_TOP + 1, LANE - 2);
  }
}

// A part of a life, with a word in it where that has room.
function drawWhose(drawing, span, wide) {
  drawBar(drawing, `who-${span.kind}`, span.left, span.width, WHOSE_TOP, WHOSE_HIGH);
  const word = SHORT[span.kind], long = word.length * LETTER + WORD_ROOM;
  const left = Math.max(span.left, 0), right = Math.min(span.left + span.width, wide), middle = (left + right) / 2;
  if (right - left < long + 8) return;
  const box = { x: middle - long / 2, width: long, y: WHOSE_TOP + 1.5, height: WHOSE_HIGH - 3, rx: 2 };
  svg("rect", { class: "word", ...box }, drawing);
  svg("text", { class: "word-of", x: middle, y: WHOSE_TOP + WHOSE_HIGH - 3.5 }, drawing).textContent = word;
}

// The life of a back request, and its end.
function drawTry(drawing, left, right, lanes) {
  const middle = BACK_TOP + LANE * lanes / 2, end = BACK_TOP + LANE * lanes - 1;
  svg("line", { class: "life", x1: left, x2: right, y1: middle, y2: middle }, drawing);
  svg("line", { class: "mark end", x1: right, x2: right, y1: BACK_TOP + 1, y2: end }, drawing);
}

// What was said of both legs, as one sentence of a row.
const legsWords = one => (one.legs?.text ?? []).join("; ");

const isHeldAtProxy = (one, who) => one.legs?.who === who;

// Offers to show those alone that were held at a proxy by someone.
function offerWhose(requests) {
  const found = HELD_AT_PROXY.filter(([who]) => requests.some(one => isHeldAtProxy(one, who)));
  if (!found.length) return;
  const group = make("optgroup", "", { label: "at a proxy" });
  group.append(...found.map(([who, name]) => make("option", name, { value: `who-${who}` })));
  field("held").append(group);
}

// Whose the time was, in these words, as a table of the request that is open.
function whoseTable(one, words) {
  if (!one.legs?.sums.length) return "";
  const caption = "Whose its time was";
  const box = make("div", "", { className: "scroll", tabIndex: 0, role: "region", ariaLabel: caption });
  const table = make("table", "", { className: "whose" }), head = table.createTHead().insertRow();
  table.prepend(make("caption", caption));
  head.append(...["Whose", "How", "How long", "Part of its life"].map(name => make("th", name, { scope: "col" })));
  const body = table.createTBody();
  for (const [kind, why, nanos] of [...one.legs.sums].sort((a, b) => b[2] - a[2])) {
    const row = body.insertRow(), part = one.nanos ? (100 * nanos / one.nanos).toPrecision(2) : 0;
    const texts = [words[kind], why ?? "", duration(rounded(nanos)), `${Number(part)} %`];
    row.append(...texts.map(text => make("td", text)));
  }
  box.append(table);
  return box;
}

// Buttons that lead to the rows of the other leg, where these are listed.
function otherLegs(one) {
  const places = [...(one.legs?.tries ?? []).map(([, , at]) => at), one.legs?.carries ?? -1];
  const rows = places.map(place => falls.listed.indexOf(falls.requests[place])).filter(row => row >= 0);
  if (!rows.length) return "";
  const line = make("p", "", { className: "keys" });
  line.append(...rows.map(row => {
    const other = falls.listed[row];
    const name = `${one.legs.carries >= 0 ? "Front" : "Back"}: ${other.name}, connection ${other.connection.number}`;
    return make("button", name, { type: "button", onclick: () => falls.open(row) });
  }));
  return line;
}
