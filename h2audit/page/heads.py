"""The tables of the page: the heads of their columns, by the class that a table has.

On a narrow screen a row stands as lines, each with its head before it; so no column is out of sight.
"""

HEADS: dict[str, tuple[str, ...]] = {
    "breaches": ("Who", "Rule", "Section", "Times", "Connections", "First"),
    "doubtful": ("Who", "Rule", "Section", "Times", "Connections", "First", "Why that can be doubted"),
    "asked": ("Whom to ask", "About", "Requests", "Connections", "Longest", "In all, each instant once"),
    "asked-of-stalls": ("Whom to ask", "About", "Stalls", "Connections", "Longest", "In all, each instant once"),
    "stalls": ("How long", "Who waited", "Where", "From"),
    "requests": ("Request", "Stream", "Connection", "Status", "Life", "What held it back", "Ask", "How it ended"),
    "whose": ("Whose", "How", "How long", "Part of its life"),
    "connections": ("Connection", "Client", "Server", "Opened in packet", "Frames", "Verdict"),
    "settings": ("Who announced it", "Initial window", "SETTINGS in packet", "Acknowledged in packet"),
    "signals": ("Who", "Sent", "Error", "Packet", "About", "Debug text"),
    "findings": ("Frame", "Packet", "Time", "What happened"),
    "windows": (
        "Window", "Faults", "Stalls", "Longest stall", "In all", "Least credit", "Greatest credit", "Last credit"
    ),
}  # fmt: skip


def narrow() -> str:
    """The heads as rules of style, for the cells of a narrow screen."""
    rules = [
        f'table.{name} td:nth-child({place})::before {{ content: "{head}"; }}'
        for name, heads in HEADS.items()
        for place, head in enumerate(heads, 1)
    ]
    return "@media screen and (max-width: 880px) {\n" + "\n".join(rules) + "\n}\n"
