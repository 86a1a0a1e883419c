// Search and filters, which hold for the charts and for the rows of the findings.

const field = name => document.getElementById(name);

function asked() {
  const words = field("search").value.trim().toLowerCase();
  return {
    words, finds: finderOf(words),
    side: field("side").value, kind: field("kind").value, stream: field("stream").value,
  };
}

// Words that end or begin in a digit are whole numbers: connection 7 is not connection 70.
function finderOf(words) {
  const whole = words.replace(/[.*+?^${}()|[\]\\]/g, "\\$&");
  const expression = new RegExp(`${/^\d/.test(words) ? "(?<!\\d)" : ""}${whole}${/\d$/.test(words) ? "(?!\\d)" : ""}`);
  return text => expression.test(text);
}

const kindsOf = one => faultsOf(charts, one).map(fault => fault.kind);

// What a search looks through; it is kept, since a page may have a hundred thousand windows.
function wordsOf(one) {
  const stalls = one.stalls ? (one.stream ? "stream-stall-begin" : "connection-stall-begin") : "";
  one.words ??= [nameOf(one), one.client, one.server, troubleOf(one), stalls, ...kindsOf(one)].join(" ").toLowerCase();
  return one.words;
}

function hasKind(one, kind) {
  if (kind === "fault") return one.faults > 0;
  if (kind === "stall") return one.stalls > 0;
  return !kind || kindsOf(one).includes(kind);
}

function isWindowAsked(one, want) {
  return (!want.words || want.finds(wordsOf(one)))
    && (!want.side || one.side === want.side)
    && (!want.stream || String(one.stream) === want.stream)
    && hasKind(one, want.kind);
}

function isRowAsked(row, want) {
  const { side, kind, stream, connection } = row.dataset;
  const isStall = /-stall-(begin|end)$/.test(kind);
  const { client, server } = row.closest("section").dataset;
  const place = `connection ${connection}, ${side}, ${Number(stream) ? `stream ${stream}` : "connection window"}`;
  const text = () => `${place} ${client} ${server} ${row.textContent}`.toLowerCase();
  return (!want.words || want.finds(text()))
    && (!want.side || side === want.side)
    && (!want.stream || stream === want.stream)
    && (!want.kind || (want.kind === "fault" ? !isStall : want.kind === "stall" ? isStall : kind === want.kind));
}

// Each kind of fault in the page can be asked for.
function offerKinds(charts) {
  const kinds = new Set([...document.querySelectorAll("tr[data-kind]")].map(row => row.dataset.kind));
  charts.kinds.forEach(([kind]) => kinds.add(kind));
  const faults = [...kinds].filter(kind => !/-stall-(begin|end)$/.test(kind)).sort();
  faults.forEach(kind => field("kind").add(new Option(kind, kind)));
}

function filterRows(want) {
  const rows = [...document.querySelectorAll("section.connection tr[data-kind]")];
  rows.forEach(row => { row.hidden = !isRowAsked(row, want); });
  return rows.filter(row => !row.hidden).length;
}
