// Spans of time as bars: what is in sight of them, and how they are drawn.

const SVG = "http://www.w3.org/2000/svg", LANE = 13;
// What is no trouble, and may be left out where it is too narrow.
const CALM = new Set(["sending", "waiting", "front", "back"]);

function svg(name, more, parent) {
  const made = document.createElementNS(SVG, name);
  for (const [key, value] of Object.entries(more)) made.setAttribute(key, value);
  parent?.append(made);
  return made;
}

// The bars of one side, one after the other.
function drawLane(drawing, spans, { x, begin, wide }, top) {
  for (const span of merged(spans, x, begin, wide)) {
    const isThin = span.kind === "waiting";
    drawBar(drawing, span.kind, span.left, span.width, top + (isThin ? 5 : 1), isThin ? 3 : LANE - 2);
  }
}

const drawBar = (drawing, name, left, width, top, high) =>
  svg("rect", { class: `bar ${name}`, x: left, width: Math.max(width, 1), y: top, height: high }, drawing);

function cut(drawing, x, isCertain) {
  const d = `M${x - 5} 8L${x + 5} 18M${x + 5} 8L${x - 5} 18`;
  svg("path", { class: isCertain ? "mark fault" : "mark doubtful", d }, drawing);
}

// Spans stand one after the other: durations and kinds.
function spansOf(numbers, kinds) {
  let begin = 0;
  const found = [];
  for (let at = 0; at < numbers.length; at += 2) {
    found.push({ begin, end: begin + numbers[at], kind: kinds[numbers[at + 1]] });
    begin += numbers[at];
  }
  return found;
}

function stallSpans(numbers) {
  const found = [];
  for (let at = 0; at < numbers.length; at += 2) {
    found.push({ begin: numbers[at], end: numbers[at] + numbers[at + 1], kind: "connection_stall" });
  }
  return found;
}

// Only what is in sight; what is narrower than a pixel belongs to the bar before it, unless it is trouble.
function merged(spans, x, begin, wide) {
  const found = [];
  for (const span of spans) {
    const left = Math.max(x(begin + span.begin), -2), right = Math.min(x(begin + span.end), wide + 2);
    if (right < -1 || left > wide + 1 || span.end === span.begin) continue;
    const last = found.at(-1), isCalm = CALM.has(span.kind);
    if (last && right - last.left < 1 && (isCalm || last.kind === span.kind)) continue;
    found.push({ left, width: Math.max(right - left, 1), kind: span.kind });
  }
  return found;
}
