// A chart of one window by dygraphs, which has its axes, scales, zoom and pan.

const UNITS = [["s", 1e9], ["ms", 1e6], ["µs", 1e3], ["ns", 1]];

// A legend would write styles that the page's policy forbids; the value under the pointer stands below the chart.
Dygraph.PLUGINS = Dygraph.PLUGINS.filter(plugin => plugin !== Dygraph.Plugins.Legend);

function colours() {
  const style = getComputedStyle(document.documentElement);
  const names = ["line", "fault", "stall", "stall-edge", "grid", "text"];
  return Object.fromEntries(names.map(name => [name, style.getPropertyValue(`--${name}`).trim()]));
}

const DIGITS = new Intl.NumberFormat("en", { maximumFractionDigits: 9 });
const grouped = number => DIGITS.format(number);

function duration(nanos) {
  const [unit, size] = UNITS.find(([, size]) => Math.abs(nanos) >= size) ?? UNITS[3];
  return `${grouped(nanos / size)} ${unit}`;
}

const moreOf = times => times > 1 ? `, and ${grouped(times - 1)} more of this kind before the next cross` : "";

const FAULTS = {
  strokeWidth: 0, drawPoints: true, pointSize: 6, drawPointCallback: cross, drawHighlightPointCallback: cross,
};

class Chart {
  // The faults of the whole connection, as frames and times, stand as lines in each of its charts.
  constructor(box, one, series, faultsOfConnection, isByFrame) {
    Object.assign(this, { box, one, series, faultsOfConnection });
    this.selected = null;
    this.setAxis(isByFrame);
  }

  setAxis(isByFrame) {
    const { frames, nanos } = this.series;
    const span = nanos.at(-1) - nanos[0];
    this.isByFrame = isByFrame;
    [this.unit, this.size] = UNITS.find(([, size]) => span >= size) ?? UNITS[3];
    this.x = isByFrame ? frames : nanos.map(time => time / this.size);
    this.draw();
  }

  fit(isPrinted) {
    this.box.classList.toggle("printed", isPrinted);
    this.draw();
  }

  // Where a place of the connection stands on the axis.
  at({ frame, nanos }) {
    return this.isByFrame ? frame : nanos / this.size;
  }

  rows() {
    const { credits, faults } = this.series;
    const at = isDoubtful => new Set(faults.filter(one => one.isDoubtful === isDoubtful).map(one => one.point));
    const certain = at(0), doubtful = at(1);
    return this.x.map((x, point) =>
      [x, credits[point], ...[doubtful, certain].map(some => some.has(point) ? credits[point] : null)]);
  }

  draw() {
    const colour = colours();
    const label = this.isByFrame ? "frame" : `${this.unit} since the ${charts.from} of the connection`;
    this.graph?.destroy();
    this.graph = new Dygraph(this.box, this.rows(), {
      labels: [label, "credit", "doubtful", "fault"], colors: [colour.line, colour.text, colour.fault],
      stepPlot: true, connectSeparatedPoints: true,
      includeZero: true, xRangePad: 8, yRangePad: 12, strokeWidth: 1.6, pointSize: 2, drawPoints: this.x.length < 1000,
      gridLineColor: colour.grid, axisLineColor: colour.text, xlabel: label, ylabel: "bytes", xLabelHeight: 18,
      series: { doubtful: FAULTS, fault: FAULTS },
      axes: {
        x: { axisLabelFormatter: grouped, axisLabelWidth: 100 },
        y: { axisLabelFormatter: grouped, axisLabelWidth: 124, pixelsPerLabel: 24 },
      },
      underlayCallback: (canvas, area, graph) => this.shade(canvas, area, graph, colour),
      highlightCallback: (event, x, points, row) => this.tell(row),
      unhighlightCallback: () => this.tell(this.selected),
    });
  }

  // Stalls as shades, and the faults of the connection as dashed lines, below the credit.
  shade(canvas, area, graph, colour) {
    const [least, most] = graph.xAxisRange();
    for (const { begin, end } of this.series.stalls) {
      const first = this.x[begin], last = this.x[end ?? this.x.length - 1];
      if (last < least || first > most) continue;
      const left = Math.max(graph.toDomXCoord(first), area.x);
      const right = Math.min(graph.toDomXCoord(last), area.x + area.w);
      canvas.fillStyle = colour.stall;
      canvas.fillRect(left, area.y, Math.max(right - left, 1), area.h);
      canvas.fillStyle = colour["stall-edge"];
      canvas.fillRect(left, area.y, 1, area.h);
    }
    canvas.setLineDash([4, 3]);
    for (const fault of this.faultsOfConnection) {
      canvas.strokeStyle = fault.isDoubtful ? colour.text : colour.fault;
      line(canvas, area, graph.toDomXCoord(this.at(fault)));
    }
    canvas.setLineDash([]);
    canvas.fillStyle = colour.text;
    const zero = graph.toDomYCoord(0);
    if (zero >= area.y && zero <= area.y + area.h) canvas.fillRect(area.x, zero, area.w, 1);
  }

  // Says the value of a point below the chart.
  tell(row) {
    const output = this.box.parentNode.querySelector("output");
    if (row === null) {
      output.textContent = "";
      return;
    }
    const { frames, nanos, credits, faults, stalls } = this.series;
    const here = faults.filter(fault => fault.point === row);
    const shared = stalls.filter(({ begin, end, times }) => times > 1 && begin <= row && row <= (end ?? row));
    output.textContent = `Frame ${grouped(frames[row])}, ${duration(nanos[row])}: credit `
      + counted(credits[row], "byte")
      + here.map(({ kind, broke, times, isDoubtful }) =>
        `; ${isDoubtful ? "doubtful: " : ""}${kind} by the ${broke}${moreOf(times)}`).join("")
      + shared.map(({ times }) => `; ${grouped(times)} stalls share this shade`).join("");
  }

  select(row) {
    this.selected = row;
    this.graph.setSelection(row);
    this.tell(row);
  }

  // Shows a sixteenth of the axis around a frame, and selects the last point up to it.
  show(frame) {
    const after = this.series.frames.findIndex(other => other > frame);
    const row = Math.max(0, (after < 0 ? this.series.frames.length : after) - 1);
    const [least, most] = this.graph.xAxisExtremes();
    const half = (most - least) / 32 || 1;
    this.graph.updateOptions({ dateWindow: [this.x[row] - half, this.x[row] + half] });
    this.select(row);
  }

  zoom(factor) {
    const [least, most] = this.graph.xAxisRange();
    const middle = this.selected === null ? (least + most) / 2 : this.x[this.selected];
    const half = (most - least) * factor / 2;
    this.graph.updateOptions({ dateWindow: [middle - half, middle + half] });
  }

  move(part) {
    const [least, most] = this.graph.xAxisRange(), far = (most - least) * part;
    this.graph.updateOptions({ dateWindow: [least + far, most + far] });
  }

  // Raises or lowers what is small: heights from the least credit up to a part of the greatest that is shown.
  stretch(factor) {
    const { credits } = this.series, most = this.graph.yAxisRange()[1] * factor;
    const least = Math.min(0, credits.reduce((one, other) => Math.min(one, other)));
    this.graph.updateOptions({ valueRange: [least - (most - least) / 20, most] });
  }

  // Selects the next point, or the one before, and keeps it in sight.
  step(by) {
    const row = Math.min(Math.max((this.selected ?? (by > 0 ? -1 : 1)) + by, 0), this.x.length - 1);
    const [least, most] = this.graph.xAxisRange(), half = (most - least) / 2;
    if (this.x[row] < least || this.x[row] > most) {
      this.graph.updateOptions({ dateWindow: [this.x[row] - half, this.x[row] + half] });
    }
    this.select(row);
  }
}

function line(canvas, area, x) {
  if (x < area.x || x > area.x + area.w) return;
  canvas.beginPath();
  canvas.moveTo(x, area.y);
  canvas.lineTo(x, area.y + area.h);
  canvas.stroke();
}

function cross(graph, name, canvas, x, y, colour, size) {
  canvas.strokeStyle = colour;
  canvas.lineWidth = 2;
  canvas.beginPath();
  canvas.moveTo(x - size, y - size);
  canvas.lineTo(x + size, y + size);
  canvas.moveTo(x + size, y - size);
  canvas.lineTo(x - size, y + size);
  canvas.stroke();
}
