"""The picture: a panel for each window, with its credit over time, its stalls and its faults."""

import warnings
from collections.abc import Sequence
from typing import TYPE_CHECKING, BinaryIO

from h2audit.plot.windows import Place, PlottedConnection, PlottedWindow
from h2audit.report.charts import Finding
from h2audit.report.words import count

if TYPE_CHECKING:  # loaded where it draws: what is wrong with words or report is said sooner, and where it is missing
    from matplotlib.axes import Axes
    from matplotlib.figure import Figure

LARGEST_WINDOW = 2**31 - 1
# A panel names so many of its faults.
MOST_LABELS = 6
# The scale is logarithmic where the greatest credit is so many times the one in the middle of a window.
MUCH_GREATER = 10
# The colours of stalls.
SHADE, SHADE_EDGE = "#ffd8b0", "tab:orange"


class Axis:
    """The x axis: time since the first finding that is drawn, in a unit that fits, or frame numbers."""

    UNITS = (("s", 10**9), ("ms", 10**6), ("µs", 10**3), ("ns", 1))

    def __init__(self, windows: list[PlottedWindow], by_frame: bool) -> None:
        findings = [place for window in windows for place in window.connection.places]
        times = [finding.time for finding in findings]
        self.by_frame, self.start = by_frame, min(times)
        span = max(times) - self.start
        self.unit, self.nanos = next((unit for unit in self.UNITS if span >= unit[1]), self.UNITS[-1])
        self.middle = (min(map(self.at, findings)) + max(map(self.at, findings))) / 2

    def at(self, finding: Place) -> float:
        return finding.frame if self.by_frame else (finding.time - self.start) / self.nanos

    @property
    def label(self) -> str:
        if self.by_frame:
            return "frame"
        return f"time in {self.unit} since {self.start // 10**9}.{self.start % 10**9:09} s"


def draw(windows: list[PlottedWindow], left_out: int, by_frame: bool, title: str = "") -> "Figure":
    """The picture: one panel for each window, all over the same axes, so that heights tell of each other."""
    from matplotlib.figure import Figure

    axis, is_wide = Axis(windows, by_frame), spans_orders(windows)
    figure = Figure(figsize=(8, 0.9 + 1.4 * len(windows) + 0.3 * bool(title)), layout="constrained")
    panels: Sequence["Axes"] = figure.subplots(len(windows), 1, sharex=True, sharey=True, squeeze=False)[:, 0]
    connections = [None, *(window.connection for window in windows)]
    for panel, window, before in zip(panels, windows, connections):
        is_first = window.connection is not before
        draw_window(panel, window, axis, is_wide)
        draw_faults(panel, window, window.faults + window.connection.other_faults * is_first, axis)
        panel.set_title(connection_name(window.connection) * is_first + window.name, loc="left", fontsize=9)
    if title:
        figure.suptitle(plain(title), fontsize=11)
    draw_legend(panels[0], windows)
    note = f"\n{count(left_out, 'more window')}: choose with --connection, --stream or --panels" if left_out else ""
    panels[-1].set_xlabel(axis.label + note, fontsize=8)
    return figure


def connection_name(one: PlottedConnection) -> str:
    return plain(f"connection {one.number}: client {one.client}, server {one.server}\n")


def plain(text: str) -> str:
    """The text, of which matplotlib is to read no part as a formula."""
    return text.replace("$", r"\$")


def draw_legend(panel: "Axes", windows: list[PlottedWindow]) -> None:
    """Says above the first panel what shades and lines mean, of those that the picture has."""
    from matplotlib.lines import Line2D
    from matplotlib.patches import Patch

    marks: list[Line2D | Patch] = [Line2D([], [], color="tab:blue", marker=".", markersize=4, label="credit")]
    if any(window.stalls for window in windows):
        marks.append(Patch(facecolor=SHADE, edgecolor=SHADE_EDGE, linewidth=0.5, label="stalled: credit used up"))
    if any(window.connection.faults for window in windows):
        marks.append(Line2D([], [], color="tab:red", linewidth=0.8, linestyle="--", label="fault"))
    legend = panel.legend(
        handles=marks,
        loc="lower right",
        bbox_to_anchor=(1, 1),
        ncol=len(marks),
        fontsize=7,
        frameon=False,
        borderaxespad=0.2,
    )
    legend.set_gid("legend")


def draw_window(panel: "Axes", window: PlottedWindow, axis: Axis, is_wide: bool) -> None:
    """Credit, stalls and scale of a window."""
    draw_stalls(panel, window, axis)
    draw_credit(panel, window, axis)
    panel.axhline(0, color="black", linewidth=0.6)
    if is_wide:
        panel.set_yscale("symlog", linthresh=1000)
        panel.yaxis.get_major_locator().set_params(numticks=6)
    panel.yaxis.set_major_formatter("{x:,.0f}")
    panel.set_ylabel("bytes, log" if is_wide else "bytes", fontsize=8)
    panel.tick_params(labelsize=8)
    panel.margins(y=0.15)


def spans_orders(windows: list[PlottedWindow]) -> bool:
    """Whether credits are so far apart that small ones could not be read beside the greatest.

    Each window counts by the size that is in its middle, since one may have many more credits than the others.
    """
    sizes = [sorted(abs(credit) for credit in heights(window) if credit) for window in windows]
    middles = [size[(len(size) - 1) // 2] for size in sizes if size]
    return bool(middles) and max(size[-1] for size in sizes if size) > MUCH_GREATER * min(middles)


def is_overflow(fault: Finding) -> bool:
    """Whether the other side granted too much."""
    return fault.broke not in (None, fault.side)


def is_at_a_credit(fault: Finding) -> bool:
    """Whether the fault's value is a credit, and so a height in the picture."""
    return is_overflow(fault) or fault.kind.endswith("-overrun")


def heights(window: PlottedWindow) -> list[int]:
    """The credits that are drawn."""
    faults = [fault.value for fault in window.faults if is_at_a_credit(fault) and fault.value is not None]
    return [*(point.value for point in window.credits), *faults]


def draw_credit(panel: "Axes", window: PlottedWindow, axis: Axis) -> None:
    """The credit as steps; what a connection's window begins with, no frame tells."""
    points = [(axis.at(finding), finding.value) for finding in window.credits]
    panel.plot(*zip(*points), linestyle="none", marker=".", markersize=4, color="tab:blue", gid=gid("credit", window))
    if window.before is not None:
        points.insert(0, (axis.at(window.connection.first), window.before))
    if last := last_seen(window):
        points.append((axis.at(last), points[-1][1]))
    panel.step(*zip(*points), where="post", linewidth=1.2, color="tab:blue")


def last_seen(window: PlottedWindow) -> Place | None:
    """The finding up to which the last credit stood; of a stream's window that is not stalled the report tells none."""
    if window.stream == 0 or (window.stalls and window.stalls[-1][1] is None):
        return window.connection.last
    end = window.stalls[-1][1] if window.stalls else None
    return end if end and end.frame > window.credits[-1].frame else None


def draw_stalls(panel: "Axes", window: PlottedWindow, axis: Axis) -> None:
    """Shades the stalls; one that is open goes up to the last finding."""
    ends = [(axis.at(begin), axis.at(end or window.connection.last)) for begin, end in window.stalls]
    if ends:
        panel.broken_barh(
            [(left, right - left) for left, right in ends],
            (0, 1),
            transform=panel.get_xaxis_transform(),
            facecolor=SHADE,
            edgecolor=SHADE_EDGE,
            linewidth=0.5,
            gid=gid("stalls", window),
        )


def draw_faults(panel: "Axes", window: PlottedWindow, named: list[Finding], axis: Axis) -> None:
    """The faults of the connection as red lines, and the names of those that this panel has to tell."""
    faults = window.connection.faults
    if faults:
        panel.vlines(
            [axis.at(fault) for fault in faults],
            0,
            1,
            transform=panel.get_xaxis_transform(),
            color="tab:red",
            linewidth=0.8,
            linestyle="--",
        )
    for fault in window.faults:
        if fault.value is not None and is_at_a_credit(fault):
            panel.plot([axis.at(fault)], [fault.value], marker="x", color="tab:red")
    if any(map(is_overflow, window.faults)):
        panel.axhline(LARGEST_WINDOW, color="tab:red", linewidth=0.6, linestyle=":")
    for row, fault in enumerate(named[:MOST_LABELS]):
        more = len(named) - MOST_LABELS if row == MOST_LABELS - 1 else 0
        draw_label(
            panel,
            row,
            label_of(fault, window) + f", and {more} more" * (more > 0),
            axis.at(fault),
            axis,
            gid("fault", window, fault.frame, fault.kind),
        )


def label_of(fault: Finding, window: PlottedWindow) -> str:
    place = f" on stream {fault.stream}" if fault.stream and fault.stream != window.stream else ""
    return f"frame {fault.frame}: {fault.kind} by the {fault.broke}{place}"


def draw_label(panel: "Axes", row: int, label: str, at: float, axis: Axis, name: str) -> None:
    """A fault's name beside its line, on the side that has more room."""
    is_right = at > axis.middle
    panel.annotate(
        label,
        (at, 1),
        xycoords=("data", "axes fraction"),
        xytext=(-4 if is_right else 4, -3 - 10 * row),
        textcoords="offset points",
        ha="right" if is_right else "left",
        va="top",
        color="tab:red",
        fontsize=8,
        gid=name,
    )


def gid(what: str, window: PlottedWindow, *more: int | str) -> str:
    """The name of a part of the picture, which an SVG keeps."""
    return "-".join(map(str, (what, window.connection.number, window.side, window.stream, *more)))


def save(figure: "Figure", target: BinaryIO, form: str) -> None:
    """Writes the picture; the same report gives the same bytes."""
    import matplotlib

    metadata = {"Date": None} if form == "svg" else None
    with matplotlib.rc_context({"svg.hashsalt": "h2audit", "svg.fonttype": "none"}), warnings.catch_warnings():
        # They are about letters that the font does not have; another font may show them.
        warnings.simplefilter("ignore")
        figure.savefig(target, format=form, metadata=metadata, dpi=120)
