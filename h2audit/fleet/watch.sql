-- What h2audit-fleet --watch keeps in the database beside the tables. docs/FLEET.md says what each column means.

-- Files of rings that were entered, in the order in which they were, and the capture that they are a part of.
CREATE TABLE IF NOT EXISTS watched (
    id INTEGER PRIMARY KEY,
    ring TEXT NOT NULL,
    path TEXT NOT NULL,
    size INTEGER NOT NULL,
    modified INTEGER NOT NULL,
    capture INTEGER REFERENCES captures (id)
);

-- Captures that are stretches of a ring: one that is open gets more files; one that is counted is no longer summed.
CREATE TABLE IF NOT EXISTS stretches (
    capture INTEGER PRIMARY KEY REFERENCES captures (id),
    ring TEXT NOT NULL,
    state TEXT NOT NULL CHECK (state IN ('open', 'sealed', 'counted'))
);

-- Connections that go on from an earlier stretch, and which one they were there, until its rows are gone.
CREATE TABLE IF NOT EXISTS continued (
    capture INTEGER NOT NULL REFERENCES captures (id),
    connection INTEGER NOT NULL,
    of_capture INTEGER REFERENCES captures (id),
    of_connection INTEGER,
    PRIMARY KEY (capture, connection)
) WITHOUT ROWID;

-- What a capture that was counted adds to each sample of the metrics, and how large a sample was when it was shown.
CREATE TABLE IF NOT EXISTS counted (
    metric TEXT NOT NULL,
    labels TEXT NOT NULL,
    counted REAL NOT NULL,
    shown REAL NOT NULL DEFAULT 0,
    PRIMARY KEY (metric, labels)
) WITHOUT ROWID;

CREATE INDEX IF NOT EXISTS watched_by_capture ON watched (capture);

-- What stood open at the end of an earlier stretch, and is told at a later one since it goes on there; whether the
-- earlier one was counted with it.
CREATE TABLE IF NOT EXISTS carried_requests AS
SELECT 0 AS into_capture, 0 AS into_connection, 0 AS was_counted, requests.* FROM requests WHERE 0;
CREATE TABLE IF NOT EXISTS carried_directions AS
SELECT 0 AS into_capture, 0 AS into_connection, 0 AS was_counted, directions.* FROM directions WHERE 0;
CREATE TABLE IF NOT EXISTS carried_stalls AS
SELECT 0 AS into_capture, 0 AS into_connection, 0 AS was_counted, stalls.* FROM stalls WHERE 0;
CREATE TABLE IF NOT EXISTS carried_legs AS
SELECT 0 AS into_capture, 0 AS into_connection, 0 AS was_counted, legs.* FROM legs WHERE 0;
CREATE TABLE IF NOT EXISTS carried_leg_times AS
SELECT 0 AS into_capture, 0 AS into_connection, 0 AS was_counted, leg_times.* FROM leg_times WHERE 0;
CREATE TABLE IF NOT EXISTS carried_brakes AS
SELECT 0 AS into_capture, 0 AS into_connection, 0 AS was_counted, brakes.* FROM brakes WHERE 0;
