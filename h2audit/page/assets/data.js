// Unpacks the windows of the page. Numbers are differences to the ones before, and are summed when a window is drawn.

async function unpackedCharts() {
  const said = await unpacked("chart-data");
  return { ...said, windows: windowsOf(said) };
}

// By promises alone, and no task: so what is printed as soon as the page is loaded has its charts.
async function unpacked(id) {
  const letters = atob(document.getElementById(id).textContent);
  const bytes = new Uint8Array(letters.length);
  for (let at = 0; at < letters.length; at += 1) bytes[at] = letters.charCodeAt(at);
  const stream = new DecompressionStream("deflate"), writer = stream.writable.getWriter();
  writer.write(bytes).then(() => writer.close());
  const reader = stream.readable.getReader(), decoder = new TextDecoder(), parts = [];
  for (let part = await reader.read(); !part.done; part = await reader.read()) {
    parts.push(decoder.decode(part.value, { stream: true }));
  }
  return JSON.parse(parts.join(""));
}

const OF_STALL = 3, OF_FAULT = 4;

function nameOf({ connection, side, stream }) {
  return `Connection ${connection}, ${side}, ${stream ? `stream ${stream}` : "connection window"}`;
}

const sumOfSteps = numbers => summed(numbers, 0, numbers.length);

// Each window, with where its numbers begin in the columns of all.
function windowsOf(said) {
  let point = 0, stall = 0, fault = 0, frame = 0, time = 0;
  const [connections, places, streams] = [said.connections, said.places, said.streams].map(sumOfSteps);
  const found = [];
  said.points.forEach((points, number) => {
    const place = places[number], stalls = said.stalled[number], faults = said.faulty[number];
    frame += said.frames[point];
    time += said.times[point];
    found.push({
      number, place, connection: connections[place], client: said.clients[place], server: said.servers[place],
      side: said.sides[number] ? "server" : "client", stream: streams[number], points, stalls, faults,
      firstPoint: point, firstFrame: frame, firstTime: time, firstStall: stall, firstFault: fault,
      longest: said.waits[number] * said.unit,
    });
    point += points;
    stall += OF_STALL * stalls;
    fault += OF_FAULT * faults;
  });
  return found;
}

function summed(column, begin, size, first = column[begin]) {
  let last = first;
  return column.slice(begin, begin + size).map((step, at) => at ? last += step : last);
}

function faultsOf(said, one) {
  const found = [];
  for (let at = one.firstFault; at < one.firstFault + OF_FAULT * one.faults; at += OF_FAULT) {
    const [kind, isOfOther, isDoubtful] = said.kinds[said.faults[at + 1]];
    const other = one.side === "client" ? "server" : "client", times = said.faults[at + 3];
    found.push({ point: said.faults[at], kind, isDoubtful, broke: isOfOther ? other : one.side, times });
  }
  return found;
}

// Stalls as pairs of points, and how many each pair stands for.
function stallsOf(said, one) {
  const found = [];
  let begin = 0;
  for (let at = one.firstStall; at < one.firstStall + OF_STALL * one.stalls; at += OF_STALL) {
    begin += said.stalls[at];
    found.push({ begin, end: said.stalls[at + 1] ? begin + said.stalls[at + 1] : null, times: said.stalls[at + 2] });
  }
  return found;
}

// The points of a window, its stalls and its faults.
function seriesOf(said, one) {
  return {
    frames: summed(said.frames, one.firstPoint, one.points, one.firstFrame),
    nanos: summed(said.times, one.firstPoint, one.points, one.firstTime).map(time => time * said.unit),
    credits: summed(said.credits, one.firstPoint, one.points),
    stalls: stallsOf(said, one), faults: faultsOf(said, one),
  };
}

const counted = (number, word) => `${grouped(number)} ${word}${number === 1 ? "" : "s"}`;
const inAll = marks => marks.reduce((sum, { times }) => sum + times, 0);

// How many faults, of which so many can be doubted.
function faultsWords(faults, doubtful) {
  if (faults === doubtful) return counted(faults, "doubtful fault");
  return counted(faults, "fault") + (doubtful ? ` (${grouped(doubtful)} of them doubtful)` : "");
}

// In words, what went wrong with a window.
function troubleOf(one) {
  const stalls = stallsOf(charts, one), faults = faultsOf(charts, one), words = [];
  if (faults.length) words.push(faultsWords(inAll(faults), inAll(faults.filter(fault => fault.isDoubtful))));
  if (stalls.length) {
    const longest = one.longest ? `, the longest ${duration(one.longest)}` : " that took no time";
    words.push(counted(inAll(stalls), "stall") + longest);
  }
  if (stalls.at(-1)?.end === null) words.push("the last one has no end");
  return words.join("; ") || "no trouble";
}
