"""What h2audit-why knows of a connection beside its findings: notes, round trip, place, settings, and how it ended."""

from h2audit.page.answer import ended
from h2audit.page.markup import Content, Markup, row, shortened
from h2audit.page.model import ChartedConnection
from h2audit.report import answer_types
from h2audit.report.answer_types import At, Signal
from h2audit.report.words import count, time_of, were

# So many rows of each table.
MOST_ROWS = 50
SOURCES = {"tcp": "by TCP", "http2": "by HTTP/2's reactions"}
ENDS = {"FIN": "FIN", "RST": "RST", "capture": "nothing: the capture ends with it open"}
PLACES = {"client": "at the client", "server": "at the server", "between": "between the peers"}


def known_of(one: ChartedConnection) -> list[str]:
    """How it was joined, its notes, and facts, in sentences; none of a report."""
    said = one.said
    if not said:
        return []
    trip = said["round_trip"]
    facts = [
        f"TLS: {said['tls']}" * bool(said["tls"]),
        f"Round trip {time_of(trip['nanos'])}, {SOURCES[trip['source'] or 'tcp']}" if trip["nanos"] is not None else "",
        f"Captured {PLACES[said['captured_at']]}" if said["captured_at"] else "",
        *[uncaptured(side, number) for side, number in said["uncaptured"].items() if number],
    ]
    joined = said["joined"]["text"] if said["joined"] else []
    return [ended(text) for text in [*joined, *said["notes"], *facts, *said["limits"]] if text]


def uncaptured(side: str, number: int) -> str:
    """What TCP tells of bytes that the capture lacks."""
    them = "it" if number == 1 else "them"
    return f"{count(number, 'byte')} that the {side} sent {were(number)} acknowledged, and no packet has {them}"


def settings_table(one: ChartedConnection) -> Markup:
    """The initial windows that were announced."""
    found = one.said["settings"] if one.said else []
    rows = [
        row(
            [
                f"the {setting['side']}",
                setting["initial_window"],
                packet_of(setting["at"]),
                packet_of(setting["acknowledged"]) if setting["acknowledged"] else "not acknowledged",
            ]
        )
        for setting in found[:MOST_ROWS]
    ]
    return shortened(f"Initial windows of connection {one.opening.number}", "settings", rows, len(found))


def signal_table(one: ChartedConnection) -> Markup:
    """Each GOAWAY, each RST_STREAM with an error, and how the connection ended."""
    if not one.said:
        return Markup("")
    found = one.said["signals"]
    cells = [signal_cells(signal) for signal in found[:MOST_ROWS]] + end_cells(one.said)
    whole = len(found) + len(cells) - min(len(found), MOST_ROWS)
    return shortened(f"How connection {one.opening.number} ended", "signals", list(map(row, cells)), whole)


def signal_cells(signal: Signal) -> list[Content]:
    is_goaway = signal["word"] == "GOAWAY"
    about = f"last stream {signal['last_stream'] or 0}" if is_goaway else f"stream {signal['stream']}"
    place = packet_of(signal["at"])
    return [f"the {signal['side']}", signal["word"], signal["code_name"], place, about, signal["debug"] or ""]


def end_cells(said: answer_types.Connection) -> list[list[Content]]:
    """A FIN or an RST, or the capture's last packet of a connection; a GOAWAY that ended it stands above."""
    end, side = said["ended"], said["ended"]["side"]
    if not end["at"] or end["how"] not in ENDS:
        return []
    if side is None:
        return [["nobody", ENDS[end["how"]], "", packet_of(end["at"]), "", ""]]
    has_goaway = any(signal["word"] == "GOAWAY" and signal["side"] == side for signal in said["signals"])
    about = "the connection" + ", no GOAWAY" * (not has_goaway)
    return [[f"the {side}", ENDS[end["how"]], "", packet_of(end["at"]), about, ""]]


def packet_of(at: At) -> str:
    """Where it is, as Wireshark numbers it."""
    return f"packet {at['packet']:,}" + (f" of file {at['file']}" if at["file"] > 1 else "")
