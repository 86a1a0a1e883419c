"""What goes on from one stretch of a ring to the next: each request and each stall stands in the database once.

A connection that is not over at the end of a stretch is met in its middle by the next one. What stood open there, and
is told there again, is taken to the later stretch: with its name and from its beginning on. A stretch that is entered
anew gives back first what it took.
"""

import sqlite3

# What a request has beside it, which goes away with it: the later stretch has its own.
BESIDE = ("leg_times", "brakes", "legs")
CARRIED = ("requests", "directions", "stalls", *BESIDE)
# What the earlier part of a request knows better.
FROM_BEFORE = ("name", "method", "request_path", "authority", "promised_on")
# What the part says that held it back longer; its packets are those of another capture.
OF_CAUSE = ("cause", "why", "side", "ask", "cause_nanos", "proved", "text", "needed_window", "grade")
SUMS = ("nanos", "content", "stalls", "waiting_nanos", "sending_nanos", "stream_stall_nanos",
        "connection_stall_nanos", "tcp_nanos", "others_nanos", "idle_nanos", "unseen_nanos")  # fmt: skip
EARLIER = """
    SELECT connections.capture, connections.number
    FROM connections JOIN stretches USING (capture)
    WHERE connections.client = ? AND connections.server = ? AND connections.holds = 'http2'
          AND stretches.ring = ? AND connections.capture < ?
    ORDER BY connections.capture DESC, connections.number DESC LIMIT 1"""
# The nanoseconds between what both parts of a connection saw: from where its requests stood open on.
BETWEEN = """
    SELECT MAX(0, (SELECT MIN(time) FROM requests WHERE capture = ? AND connection = ? AND opened_before)
                  - (SELECT MAX(time + nanos) FROM requests
                     WHERE capture = ? AND connection = ? AND ended = 'capture'))"""


def give_back(base: sqlite3.Connection, capture: int) -> None:
    """Puts what a stretch took to where it stood."""
    for table in CARRIED:
        columns = ", ".join(row[1] for row in base.execute(f"PRAGMA table_info({table})"))
        base.execute(f"INSERT INTO {table} SELECT {columns} FROM carried_{table} WHERE into_capture = ?", (capture,))
    forget(base, capture)


def forget(base: sqlite3.Connection, capture: int) -> None:
    """Forgets what a stretch took."""
    for table in CARRIED:
        base.execute(f"DELETE FROM carried_{table} WHERE into_capture = ?", (capture,))
    base.execute("DELETE FROM continued WHERE capture = ?", (capture,))


def carry(base: sqlite3.Connection, capture: int, ring: str) -> None:
    """Takes what goes on in a stretch from those before it."""
    joined = "SELECT number, client, server FROM connections WHERE capture = ? AND joined IS NOT NULL"
    for connection, client, server in base.execute(joined, (capture,)).fetchall():
        earlier = base.execute(EARLIER, (client, server, ring, capture)).fetchone()
        if earlier:
            base.execute("INSERT INTO continued VALUES (?, ?, ?, ?)", (capture, connection, *earlier))
            carry_connection(base, (capture, connection), earlier)


def carry_connection(base: sqlite3.Connection, here: tuple[int, int], there: tuple[int, int]) -> None:
    between = base.execute(BETWEEN, (*here, *there)).fetchone()[0] or 0
    both = "SELECT stream FROM requests WHERE capture = ? AND connection = ? INTERSECT " * 2
    streams = base.execute(both.removesuffix(" INTERSECT "), (*here, *there)).fetchall()
    for (stream,) in streams:
        place = (*there, stream)
        [ended] = base.execute(
            "SELECT ended FROM requests WHERE (capture, connection, stream) = (?, ?, ?)", place
        ).fetchone()
        if ended == "capture":
            carry_request(base, (*here, stream), place)
        else:
            # What comes behind a request's end is none of its own.
            for table in (*BESIDE, "directions", "requests"):
                base.execute(f"DELETE FROM {table} WHERE (capture, connection, stream) = (?, ?, ?)", (*here, stream))
    carry_stalls(base, here, there, between)


def carry_request(base: sqlite3.Connection, here: tuple[int, int, int], there: tuple[int, int, int]) -> None:
    known = ", ".join(f"{column} = COALESCE(requests.{column}, earlier.{column})" for column in FROM_BEFORE)
    base.execute(
        f"""UPDATE requests SET {known}, time = earlier.time, nanos = requests.time + requests.nanos - earlier.time,
                stalled_nanos = requests.stalled_nanos + earlier.stalled_nanos
            FROM requests AS earlier
            WHERE (requests.capture, requests.connection, requests.stream) = (?, ?, ?)
                  AND (earlier.capture, earlier.connection, earlier.stream) = (?, ?, ?)""",
        (*here, *there),
    )
    cause = ", ".join(f"{column} = earlier.{column}" for column in OF_CAUSE)
    base.execute(
        f"""UPDATE requests SET {cause}, first_packet = NULL, last_packet = NULL
            FROM requests AS earlier
            WHERE (requests.capture, requests.connection, requests.stream) = (?, ?, ?)
                  AND (earlier.capture, earlier.connection, earlier.stream) = (?, ?, ?)
                  AND earlier.cause_nanos > requests.cause_nanos""",
        (*here, *there),
    )
    sums = ", ".join(f"{column} = directions.{column} + earlier.{column}" for column in SUMS)
    base.execute(
        f"""UPDATE directions SET {sums}
            FROM directions AS earlier
            WHERE (directions.capture, directions.connection, directions.stream) = (?, ?, ?)
                  AND (earlier.capture, earlier.connection, earlier.stream) = (?, ?, ?)
                  AND earlier.side = directions.side""",
        (*here, *there),
    )
    for table in (*BESIDE, "directions", "requests"):
        take(base, table, here[:2], "(capture, connection, stream) = (?, ?, ?)", there)


def carry_stalls(base: sqlite3.Connection, here: tuple[int, int], there: tuple[int, int], between: int) -> None:
    """A stall that was open, and whose window is met without credit, is one."""
    found = base.execute(
        """SELECT later.position, earlier.position, earlier.nanos
           FROM stalls AS later JOIN stalls AS earlier USING (side, stream)
           WHERE later.capture = ? AND later.connection = ? AND later.first IS NULL
                 AND earlier.capture = ? AND earlier.connection = ? AND earlier.last IS NULL""",
        (*here, *there),
    ).fetchall()
    for later, earlier, nanos in found:
        base.execute(
            "UPDATE stalls SET nanos = nanos + ? WHERE (capture, connection, position) = (?, ?, ?)",
            ((nanos or 0) + between, *here, later),
        )
        take(base, "stalls", here, "(capture, connection, position) = (?, ?, ?)", (*there, earlier))


def take(base: sqlite3.Connection, table: str, into: tuple[int, ...], which: str, place: tuple[int, int, int]) -> None:
    """Takes rows away from where they stood, and keeps them."""
    counted = "(SELECT state = 'counted' FROM stretches WHERE capture = ?)"
    kept = f"INSERT INTO carried_{table} SELECT ?, ?, {counted}, {table}.* FROM {table} WHERE {which}"
    base.execute(kept, (*into, place[0], *place))
    base.execute(f"DELETE FROM {table} WHERE {which}", place)
