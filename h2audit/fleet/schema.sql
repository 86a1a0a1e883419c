-- The database of h2audit-fleet. docs/FLEET.md says what each column means.
PRAGMA application_id = 1748123206;
PRAGMA user_version = 5;

CREATE TABLE captures (
    id INTEGER PRIMARY KEY,
    path TEXT NOT NULL UNIQUE,
    size INTEGER,
    modified INTEGER,
    sha256 TEXT,
    outcome TEXT NOT NULL CHECK (outcome IN ('audited', 'partial', 'refused', 'failed')),
    status INTEGER,
    reason TEXT,
    program TEXT,
    version TEXT NOT NULL,
    options TEXT NOT NULL,
    tries INTEGER NOT NULL,
    seconds REAL,
    worker TEXT,
    entered TEXT NOT NULL,
    report_sha256 TEXT,
    report_bytes INTEGER,
    records INTEGER,
    segments INTEGER,
    snapped INTEGER,
    not_ipv4 INTEGER,
    fragments INTEGER,
    not_tcp INTEGER,
    refused INTEGER,
    requests INTEGER
);

CREATE TABLE passed_over (
    capture INTEGER NOT NULL REFERENCES captures (id),
    record INTEGER NOT NULL,
    reason TEXT NOT NULL,
    PRIMARY KEY (capture, record)
) WITHOUT ROWID;

CREATE TABLE unopened (
    capture INTEGER NOT NULL REFERENCES captures (id),
    position INTEGER NOT NULL,
    sender TEXT NOT NULL,
    receiver TEXT NOT NULL,
    segments INTEGER NOT NULL,
    fate TEXT,
    PRIMARY KEY (capture, position)
) WITHOUT ROWID;

CREATE TABLE connections (
    capture INTEGER NOT NULL REFERENCES captures (id),
    number INTEGER NOT NULL,
    client TEXT NOT NULL,
    server TEXT NOT NULL,
    record INTEGER NOT NULL,
    holds TEXT NOT NULL,
    frames INTEGER,
    client_bytes INTEGER,
    client_gap INTEGER,
    client_tail INTEGER,
    client_end TEXT,
    server_bytes INTEGER,
    server_gap INTEGER,
    server_tail INTEGER,
    server_end TEXT,
    stopped_at INTEGER,
    joined TEXT CHECK (joined IN ('exact', 'inferred')),
    PRIMARY KEY (capture, number)
) WITHOUT ROWID;

CREATE TABLE findings (
    capture INTEGER NOT NULL,
    connection INTEGER NOT NULL,
    position INTEGER NOT NULL,
    frame INTEGER NOT NULL,
    record INTEGER NOT NULL,
    time INTEGER NOT NULL,
    side TEXT NOT NULL CHECK (side IN ('client', 'server')),
    kind TEXT NOT NULL,
    stream INTEGER NOT NULL,
    value INTEGER NOT NULL,
    broke TEXT NOT NULL CHECK (broke IN ('client', 'server', 'nobody')),
    grade TEXT CHECK (grade IN ('certain', 'joined', 'strong', 'likely', 'either')),
    PRIMARY KEY (capture, connection, position),
    FOREIGN KEY (capture, connection) REFERENCES connections (capture, number)
) WITHOUT ROWID;

CREATE TABLE stalls (
    capture INTEGER NOT NULL,
    connection INTEGER NOT NULL,
    position INTEGER NOT NULL,
    side TEXT NOT NULL CHECK (side IN ('client', 'server')),
    stream INTEGER NOT NULL,
    first INTEGER,
    last INTEGER,
    nanos INTEGER,
    ask TEXT NOT NULL CHECK (ask IN ('client', 'server')),
    grade TEXT CHECK (grade IN ('certain', 'strong', 'likely', 'either')),
    PRIMARY KEY (capture, connection, position),
    FOREIGN KEY (capture, connection) REFERENCES connections (capture, number)
) WITHOUT ROWID;

-- What is assumed of the windows of connections that began before the capture, and how sure that is.
CREATE TABLE windows (
    capture INTEGER NOT NULL,
    connection INTEGER NOT NULL,
    position INTEGER NOT NULL,
    side TEXT NOT NULL CHECK (side IN ('client', 'server')),
    window TEXT NOT NULL CHECK (window IN ('connection', 'initial', 'stream')),
    stream INTEGER,
    credit INTEGER NOT NULL,
    least INTEGER NOT NULL,
    grade TEXT NOT NULL CHECK (grade IN ('strong', 'likely', 'either', 'broken', 'bound')),
    bits INTEGER NOT NULL,
    touches INTEGER NOT NULL,
    pause_nanos INTEGER NOT NULL,
    or_window TEXT CHECK (or_window IN ('connection', 'initial', 'stream')),
    or_stream INTEGER,
    can_stall INTEGER NOT NULL CHECK (can_stall IN (0, 1)),
    PRIMARY KEY (capture, connection, position),
    FOREIGN KEY (capture, connection) REFERENCES connections (capture, number)
) WITHOUT ROWID;

CREATE TABLE kinds (
    kind TEXT PRIMARY KEY,
    broke TEXT NOT NULL CHECK (broke IN ('the named side', 'the other side', 'nobody'))
) WITHOUT ROWID;

-- What h2audit-why tells of each request, where --requests or --unnamed-requests asked for it.
CREATE TABLE requests (
    capture INTEGER NOT NULL,
    connection INTEGER NOT NULL,
    stream INTEGER NOT NULL,
    name TEXT,
    method TEXT,
    request_path TEXT,
    authority TEXT,
    status INTEGER,
    grpc_status INTEGER,
    promised_on INTEGER,
    packet INTEGER NOT NULL,
    frame INTEGER,
    time INTEGER NOT NULL,
    nanos INTEGER NOT NULL,
    stalled_nanos INTEGER NOT NULL,
    hung INTEGER NOT NULL CHECK (hung IN (0, 1)),
    ended TEXT NOT NULL,
    ended_by TEXT CHECK (ended_by IN ('client', 'server')),
    code INTEGER,
    end_packet INTEGER,
    end_frame INTEGER,
    end_time INTEGER,
    cause TEXT NOT NULL,
    why TEXT,
    side TEXT CHECK (side IN ('client', 'server')),
    ask TEXT CHECK (ask IN ('client', 'server')),
    cause_nanos INTEGER NOT NULL,
    first_packet INTEGER,
    last_packet INTEGER,
    proved INTEGER NOT NULL CHECK (proved IN (0, 1)),
    text TEXT NOT NULL,
    needed_window INTEGER,
    grade TEXT CHECK (grade IN ('certain', 'strong', 'likely', 'either')),
    opened_before INTEGER NOT NULL CHECK (opened_before IN (0, 1)),
    PRIMARY KEY (capture, connection, stream),
    FOREIGN KEY (capture, connection) REFERENCES connections (capture, number)
) WITHOUT ROWID;

-- What one side sent of a request: the eight shares sum to its life.
CREATE TABLE directions (
    capture INTEGER NOT NULL,
    connection INTEGER NOT NULL,
    stream INTEGER NOT NULL,
    side TEXT NOT NULL CHECK (side IN ('client', 'server')),
    nanos INTEGER NOT NULL,
    content INTEGER NOT NULL,
    stalls INTEGER NOT NULL,
    waiting_nanos INTEGER NOT NULL,
    sending_nanos INTEGER NOT NULL,
    stream_stall_nanos INTEGER NOT NULL,
    connection_stall_nanos INTEGER NOT NULL,
    tcp_nanos INTEGER NOT NULL,
    others_nanos INTEGER NOT NULL,
    idle_nanos INTEGER NOT NULL,
    unseen_nanos INTEGER NOT NULL,
    first_packet INTEGER,
    last_packet INTEGER,
    PRIMARY KEY (capture, connection, stream, side),
    FOREIGN KEY (capture, connection, stream) REFERENCES requests (capture, connection, stream)
) WITHOUT ROWID;

-- Both legs of a proxy, as h2audit-why finds them: its two listeners, how sure it is which back requests carried front
-- ones, and whom to ask about most of the time.
CREATE TABLE hops (
    capture INTEGER NOT NULL REFERENCES captures (id),
    position INTEGER NOT NULL,
    front TEXT NOT NULL,
    back TEXT NOT NULL,
    requests INTEGER NOT NULL,
    back_requests INTEGER NOT NULL,
    sure INTEGER NOT NULL,
    likely INTEGER NOT NULL,
    ambiguous INTEGER NOT NULL,
    unpaired INTEGER NOT NULL,
    ask TEXT CHECK (ask IN ('client', 'proxy', 'upstream')),
    ask_who TEXT,
    ask_why TEXT,
    ask_nanos INTEGER,
    ask_connection INTEGER,
    ask_stream INTEGER,
    ask_address TEXT,
    behind_requests INTEGER,
    behind_clients INTEGER,
    longest_nanos INTEGER,
    PRIMARY KEY (capture, position),
    FOREIGN KEY (capture, ask_connection, ask_stream) REFERENCES requests (capture, connection, stream)
) WITHOUT ROWID;

-- Each front request of a hop: the back one that answered it, whom to ask, and behind which other front one it stood.
CREATE TABLE legs (
    capture INTEGER NOT NULL,
    connection INTEGER NOT NULL,
    stream INTEGER NOT NULL,
    hop INTEGER NOT NULL,
    grade TEXT CHECK (grade IN ('sure', 'likely', 'ambiguous')),
    likeness TEXT CHECK (likeness IN ('id', 'path', 'last-part', 'content')),
    back_connection INTEGER,
    back_stream INTEGER,
    tries INTEGER NOT NULL,
    none_why TEXT CHECK (none_why IN ('answered-itself', 'not-seen', 'ambiguous')),
    openings INTEGER NOT NULL,
    ask TEXT CHECK (ask IN ('client', 'proxy', 'upstream')),
    ask_who TEXT,
    ask_why TEXT,
    ask_nanos INTEGER,
    ask_address TEXT,
    behind_connection INTEGER,
    behind_stream INTEGER,
    behind_how TEXT CHECK (behind_how IN ('held', 'window', 'upload')),
    behind_nanos INTEGER,
    PRIMARY KEY (capture, connection, stream),
    FOREIGN KEY (capture, connection, stream) REFERENCES requests (capture, connection, stream),
    FOREIGN KEY (capture, back_connection, back_stream) REFERENCES requests (capture, connection, stream),
    FOREIGN KEY (capture, behind_connection, behind_stream) REFERENCES requests (capture, connection, stream),
    FOREIGN KEY (capture, hop) REFERENCES hops (capture, position)
) WITHOUT ROWID;

-- Whose the time of a front request was: the rows of one sum to its life, where that is told.
CREATE TABLE leg_times (
    capture INTEGER NOT NULL,
    connection INTEGER NOT NULL,
    stream INTEGER NOT NULL,
    who TEXT NOT NULL CHECK (who IN ('client', 'front', 'proxy', 'other', 'back', 'upstream', 'unseen')),
    why TEXT NOT NULL,
    nanos INTEGER NOT NULL,
    PRIMARY KEY (capture, connection, stream, who, why),
    FOREIGN KEY (capture, connection, stream) REFERENCES legs (capture, connection, stream)
) WITHOUT ROWID;

-- Where a client or an upstream did not take what the proxy held, and for how long the proxy passed that on.
CREATE TABLE brakes (
    capture INTEGER NOT NULL,
    connection INTEGER NOT NULL,
    stream INTEGER NOT NULL,
    position INTEGER NOT NULL,
    side TEXT NOT NULL CHECK (side IN ('client', 'upstream')),
    begin_nanos INTEGER NOT NULL,
    nanos INTEGER NOT NULL,
    most_held INTEGER NOT NULL,
    times_passed_on INTEGER NOT NULL,
    passed_on_nanos INTEGER NOT NULL,
    passed_by TEXT,
    held INTEGER,
    after_nanos INTEGER,
    PRIMARY KEY (capture, connection, stream, position),
    FOREIGN KEY (capture, connection, stream) REFERENCES legs (capture, connection, stream)
) WITHOUT ROWID;

-- Whether a fault can be doubted, and what set the window that it is about.
CREATE TABLE certainty (
    capture INTEGER NOT NULL,
    connection INTEGER NOT NULL,
    frame INTEGER NOT NULL,
    side TEXT NOT NULL CHECK (side IN ('client', 'server')),
    kind TEXT NOT NULL,
    stream INTEGER NOT NULL,
    certainty TEXT NOT NULL CHECK (certainty IN ('certain', 'settings', 'gap', 'clock', 'joined')),
    doubt TEXT,
    set_by TEXT,
    PRIMARY KEY (capture, connection, frame, kind, stream, side),
    FOREIGN KEY (capture, connection) REFERENCES connections (capture, number)
) WITHOUT ROWID;

-- Why a connection was not audited, by its first packets: more than the report's word.
CREATE TABLE reasons (
    capture INTEGER NOT NULL,
    connection INTEGER NOT NULL,
    reason TEXT NOT NULL,
    PRIMARY KEY (capture, connection),
    FOREIGN KEY (capture, connection) REFERENCES connections (capture, number)
) WITHOUT ROWID;

CREATE INDEX captures_by_outcome ON captures (outcome, reason);
CREATE INDEX connections_by_client ON connections (client);
CREATE INDEX connections_by_server ON connections (server);
CREATE INDEX faults_by_kind_and_side ON findings (kind, broke) WHERE broke <> 'nobody';
CREATE INDEX stalls_by_nanos ON stalls (nanos);
CREATE INDEX requests_by_cause ON requests (cause, cause_nanos);

-- Each fault, with the endpoint of the side that broke the rule, and whether it can be doubted, where that is known. Of
-- a connection of which something is inferred the grade is 'certain' or 'joined'.
CREATE VIEW faults AS
SELECT captures.path, findings.connection, findings.frame, findings.record, findings.time, findings.kind,
       findings.stream, findings.value, findings.broke,
       CASE findings.broke WHEN 'client' THEN connections.client ELSE connections.server END AS endpoint,
       certainty.certainty, certainty.doubt, findings.grade
FROM findings
JOIN captures ON captures.id = findings.capture
JOIN connections ON connections.capture = findings.capture AND connections.number = findings.connection
LEFT JOIN certainty
    ON certainty.capture = findings.capture AND certainty.connection = findings.connection
       AND certainty.frame = findings.frame AND certainty.kind = findings.kind
       AND certainty.stream = findings.stream AND certainty.side = findings.side
WHERE findings.broke <> 'nobody';

-- How many faults of each kind each side has, in how many connections and captures; none that rests on what is
-- inferred.
CREATE VIEW faults_by_kind AS
SELECT kind, broke, COUNT(*) AS faults, COUNT(DISTINCT capture || ' ' || connection) AS connections,
       COUNT(DISTINCT capture) AS captures
FROM findings
WHERE broke <> 'nobody' AND grade IS NOT 'joined'
GROUP BY kind, broke;

-- How many faults each endpoint has, likewise; of a client its address, since its ports differ.
CREATE VIEW faults_by_peer AS
SELECT CASE broke WHEN 'client' THEN rtrim(rtrim(endpoint, '0123456789'), ':') ELSE endpoint END AS peer,
       broke AS role, kind, COUNT(*) AS faults, COUNT(DISTINCT path) AS captures
FROM faults
WHERE grade IS NOT 'joined'
GROUP BY peer, role, kind;

-- The stalls, the longest first: who waited, and whom to ask. One that did not end lasts up to the connection's last
-- packet.
CREATE VIEW longest_stalls AS
SELECT captures.path, stalls.connection, stalls.side AS waited, stalls.stream, stalls.first, stalls.last,
       stalls.last IS NULL AS open, stalls.nanos, stalls.nanos / 1e6 AS milliseconds, stalls.ask,
       CASE stalls.ask WHEN 'client' THEN connections.client ELSE connections.server END AS endpoint, stalls.grade
FROM stalls
JOIN captures ON captures.id = stalls.capture
JOIN connections ON connections.capture = stalls.capture AND connections.number = stalls.connection
WHERE stalls.nanos IS NOT NULL
ORDER BY stalls.nanos DESC;

-- The stalls that did not end.
CREATE VIEW open_stalls AS
SELECT captures.path, stalls.connection, stalls.side AS waited, stalls.stream, stalls.first, stalls.nanos,
       stalls.nanos / 1e6 AS milliseconds, stalls.ask,
       CASE stalls.ask WHEN 'client' THEN connections.client ELSE connections.server END AS endpoint, stalls.grade
FROM stalls
JOIN captures ON captures.id = stalls.capture
JOIN connections ON connections.capture = stalls.capture AND connections.number = stalls.connection
WHERE stalls.last IS NULL;

-- Of each peer that granted nothing, how often and how long others waited for it, and how many of these stalls are
-- inferred; of a client its address.
CREATE VIEW stalls_by_peer AS
SELECT CASE stalls.ask
           WHEN 'client' THEN rtrim(rtrim(connections.client, '0123456789'), ':')
           ELSE connections.server
       END AS peer,
       stalls.ask AS role, COUNT(*) AS stalls, SUM(stalls.last IS NULL) AS open,
       MAX(stalls.nanos) / 1e6 AS longest_milliseconds, TOTAL(stalls.nanos) / 1e6 AS total_milliseconds,
       COUNT(DISTINCT stalls.capture) AS captures,
       COUNT(NULLIF(stalls.grade, 'certain')) AS inferred
FROM stalls
JOIN connections ON connections.capture = stalls.capture AND connections.number = stalls.connection
GROUP BY peer, role;

-- How long each window stood still.
CREATE VIEW still_windows AS
SELECT captures.path, stalls.connection, stalls.side AS waited, stalls.stream, COUNT(*) AS stalls,
       SUM(stalls.last IS NULL) AS open, SUM(stalls.nanos) / 1e6 AS milliseconds, stalls.grade
FROM stalls
JOIN captures ON captures.id = stalls.capture
WHERE stalls.nanos IS NOT NULL
GROUP BY stalls.capture, stalls.connection, stalls.side, stalls.stream, stalls.grade;

-- What was not audited, and why: whole captures, those without a connection too, connections, flows of TLS that were
-- read no further, segments whose connection began before the capture, and records that were passed over.
CREATE VIEW not_audited AS
SELECT path, 'capture' AS what, NULL AS sender, NULL AS receiver, outcome || ': ' || reason AS reason
FROM captures
WHERE outcome <> 'audited'
UNION ALL
SELECT path, 'capture', NULL, NULL,
       CASE
           WHEN reason IS NOT NULL THEN reason
           WHEN records = 0 THEN 'empty'
           WHEN segments > 0 THEN 'no-connection'
           WHEN not_tcp > 0 AND not_tcp >= not_ipv4 THEN 'not-tcp'
           WHEN not_ipv4 > 0 THEN 'not-ipv4'
           ELSE 'no-connection'
       END
FROM captures
WHERE outcome = 'audited'
      AND NOT EXISTS (SELECT 1 FROM connections WHERE capture = captures.id)
      AND (reason IS NOT NULL OR NOT EXISTS (SELECT 1 FROM unopened WHERE capture = captures.id))
UNION ALL
SELECT captures.path, 'connection ' || connections.number, connections.client, connections.server,
       CASE
           WHEN reasons.reason IS NOT NULL THEN reasons.reason
           WHEN connections.holds LIKE 'refused %' THEN substr(connections.holds, 9)
           ELSE connections.holds
       END
FROM connections
JOIN captures ON captures.id = connections.capture
LEFT JOIN reasons ON reasons.capture = connections.capture AND reasons.connection = connections.number
WHERE connections.holds <> 'http2'
UNION ALL
SELECT captures.path, 'rest of connection ' || connections.number, connections.client, connections.server,
       connections.client_end
FROM connections
JOIN captures ON captures.id = connections.capture
WHERE connections.client_end IS NOT NULL
UNION ALL
SELECT captures.path, 'rest of connection ' || connections.number, connections.server, connections.client,
       connections.server_end
FROM connections
JOIN captures ON captures.id = connections.capture
WHERE connections.server_end IS NOT NULL
UNION ALL
SELECT captures.path, 'segments ' || unopened.segments, unopened.sender, unopened.receiver,
       COALESCE(unopened.fate, 'unopened')
FROM unopened
JOIN captures ON captures.id = unopened.capture
WHERE unopened.fate IS NOT 'joined'
UNION ALL
SELECT captures.path, CASE COUNT(*) WHEN 1 THEN 'record ' || MIN(record) ELSE 'records ' || COUNT(*) END, NULL, NULL,
       CASE WHEN passed_over.reason LIKE 'refused %' THEN substr(passed_over.reason, 9) ELSE passed_over.reason END
FROM passed_over
JOIN captures ON captures.id = passed_over.capture
GROUP BY captures.id, passed_over.reason;

-- The flows in which the capture lost bytes: their findings are to be read with care.
CREATE VIEW lost_bytes AS
SELECT captures.path, connections.number AS connection, 'client' AS side, connections.client_gap AS gap
FROM connections
JOIN captures ON captures.id = connections.capture
WHERE connections.client_gap IS NOT NULL AND connections.client_end IS NULL
UNION ALL
SELECT captures.path, connections.number, 'server', connections.server_gap
FROM connections
JOIN captures ON captures.id = connections.capture
WHERE connections.server_gap IS NOT NULL AND connections.server_end IS NULL;

-- Of each capture what a CI job asks: is there a fault, and was there anything to audit.
CREATE VIEW verdicts AS
SELECT captures.path,
       CASE
           WHEN captures.outcome IN ('refused', 'failed') THEN captures.outcome
           WHEN captures.status = 1 THEN 'faults'
           WHEN http2.connections IS NULL THEN 'nothing audited'
           ELSE 'clean'
       END AS verdict,
       COALESCE(http2.connections, 0) AS http2_connections,
       (SELECT COUNT(*) FROM findings
        WHERE findings.capture = captures.id AND findings.broke <> 'nobody'
              AND findings.grade IS NOT 'joined') AS faults,
       (SELECT COUNT(*) FROM stalls WHERE stalls.capture = captures.id) AS stalls,
       COALESCE(http2.joined, 0) AS joined_connections
FROM captures
LEFT JOIN (SELECT capture, COUNT(*) AS connections, COUNT(joined) AS joined FROM connections
           WHERE holds = 'http2' GROUP BY capture) AS http2
    ON http2.capture = captures.id;

-- The connections that began before the capture and were joined: how, what is claimed of them, and how many windows
-- have which grade.
CREATE VIEW joined_connections AS
SELECT captures.path, connections.number AS connection, connections.client, connections.server, connections.joined,
       connections.frames,
       (SELECT COUNT(*) FROM stalls
        WHERE stalls.capture = connections.capture AND stalls.connection = connections.number) AS stalls,
       (SELECT COUNT(*) FROM findings
        WHERE findings.capture = connections.capture AND findings.connection = connections.number
              AND findings.broke <> 'nobody') AS faults,
       COALESCE(SUM(windows.grade = 'strong'), 0) AS strong, COALESCE(SUM(windows.grade = 'likely'), 0) AS likely,
       COALESCE(SUM(windows.grade = 'either'), 0) AS either, COALESCE(SUM(windows.grade = 'broken'), 0) AS broken,
       COALESCE(SUM(windows.grade = 'bound'), 0) AS bound
FROM connections
JOIN captures ON captures.id = connections.capture
LEFT JOIN windows ON windows.capture = connections.capture AND windows.connection = connections.number
WHERE connections.joined IS NOT NULL
GROUP BY connections.capture, connections.number;

-- The requests that a window or TCP held back, the worst first: those that hung, then by how long they were held.
CREATE VIEW worst_requests AS
SELECT captures.path, requests.connection, requests.stream, requests.name, requests.status, requests.hung,
       requests.cause, requests.why, requests.cause_nanos AS nanos, requests.cause_nanos / 1e6 AS milliseconds,
       100.0 * requests.cause_nanos / requests.nanos AS percent, requests.ask,
       CASE requests.ask WHEN 'client' THEN connections.client WHEN 'server' THEN connections.server END AS endpoint,
       requests.first_packet, requests.last_packet, requests.text, requests.grade
FROM requests
JOIN captures ON captures.id = requests.capture
JOIN connections ON connections.capture = requests.capture AND connections.number = requests.connection
WHERE requests.cause IN ('stream-window', 'connection-window', 'tcp')
ORDER BY requests.hung DESC, requests.cause_nanos DESC, captures.path, requests.connection, requests.stream;

-- What each peer held back, by which window or TCP, and for how long; of a client its address.
CREATE VIEW held_back_by_peer AS
SELECT CASE requests.ask
           WHEN 'client' THEN rtrim(rtrim(connections.client, '0123456789'), ':')
           ELSE connections.server
       END AS peer,
       requests.ask AS role, requests.cause, requests.name, COUNT(*) AS requests, SUM(requests.hung) AS hung,
       MAX(requests.cause_nanos) / 1e6 AS longest_milliseconds,
       TOTAL(requests.cause_nanos) / 1e6 AS total_milliseconds, COUNT(DISTINCT requests.capture) AS captures
FROM requests
JOIN connections ON connections.capture = requests.capture AND connections.number = requests.connection
WHERE requests.ask IS NOT NULL AND requests.cause IN ('stream-window', 'connection-window', 'tcp')
GROUP BY peer, role, requests.cause, requests.name;

-- How long windows stalled the requests of each name, and for what share of their lives, those stalled longest first.
CREATE VIEW stalls_by_name AS
SELECT name, COUNT(*) AS requests, SUM(stalled_nanos > 0) AS stalled, SUM(hung) AS hung,
       MAX(stalled_nanos) / 1e6 AS longest_milliseconds, TOTAL(stalled_nanos) / 1e6 AS total_milliseconds,
       100.0 * TOTAL(stalled_nanos) / NULLIF(TOTAL(nanos), 0) AS percent, COUNT(DISTINCT capture) AS captures
FROM requests
GROUP BY name
ORDER BY TOTAL(stalled_nanos) DESC, name;

-- The requests that neither a window nor TCP held back, but an application or the path made slow, the longest first.
CREATE VIEW slow_requests AS
SELECT captures.path, requests.connection, requests.stream, requests.name, requests.status, requests.cause,
       requests.why, requests.cause_nanos AS nanos, requests.cause_nanos / 1e6 AS milliseconds,
       100.0 * requests.cause_nanos / requests.nanos AS percent, requests.ask,
       CASE requests.ask WHEN 'client' THEN connections.client WHEN 'server' THEN connections.server END AS endpoint,
       requests.first_packet, requests.last_packet, requests.text
FROM requests
JOIN captures ON captures.id = requests.capture
JOIN connections ON connections.capture = requests.capture AND connections.number = requests.connection
WHERE requests.cause IN ('application', 'path')
ORDER BY requests.cause_nanos DESC, captures.path, requests.connection, requests.stream;

-- How many these are by cause, by the side that it was, and by its peer; of a client its address.
CREATE VIEW slow_by_cause AS
SELECT cause, why, side,
       CASE side WHEN 'client' THEN rtrim(rtrim(connections.client, '0123456789'), ':') ELSE connections.server END
           AS peer,
       COUNT(*) AS requests, MAX(cause_nanos) / 1e6 AS longest_milliseconds,
       TOTAL(cause_nanos) / 1e6 AS total_milliseconds, COUNT(DISTINCT requests.capture) AS captures
FROM requests
JOIN connections ON connections.capture = requests.capture AND connections.number = requests.connection
WHERE cause IN ('application', 'path')
GROUP BY cause, why, side, peer
ORDER BY TOTAL(cause_nanos) DESC, cause, why, side, peer;

-- The requests that the path made slow, the longest first: what their side sent of them, for how long it sent them or
-- other streams, and how many bytes a second these were.
CREATE VIEW path_requests AS
SELECT captures.path, requests.connection, requests.stream, requests.name, requests.side,
       CASE requests.side WHEN 'client' THEN connections.client ELSE connections.server END AS sender,
       CASE requests.side WHEN 'client' THEN connections.server ELSE connections.client END AS receiver,
       directions.content, requests.cause_nanos / 1e6 AS milliseconds,
       directions.sending_nanos / 1e6 AS own_milliseconds, directions.others_nanos / 1e6 AS others_milliseconds,
       directions.content * 1e9 / NULLIF(requests.cause_nanos, 0) AS bytes_per_second, requests.text
FROM requests
JOIN captures ON captures.id = requests.capture
JOIN connections ON connections.capture = requests.capture AND connections.number = requests.connection
JOIN directions
    ON directions.capture = requests.capture AND directions.connection = requests.connection
       AND directions.stream = requests.stream AND directions.side = requests.side
WHERE requests.cause = 'path'
ORDER BY requests.cause_nanos DESC, captures.path, requests.connection, requests.stream;

-- The requests of connections that began before the capture, the worst first: their causes, each with its grade.
CREATE VIEW joined_requests AS
SELECT captures.path, requests.connection, requests.stream, requests.name, requests.opened_before, requests.hung,
       requests.cause, requests.why, requests.cause_nanos / 1e6 AS milliseconds, requests.ask, requests.grade,
       connections.joined, requests.text
FROM requests
JOIN captures ON captures.id = requests.capture
JOIN connections ON connections.capture = requests.capture AND connections.number = requests.connection
WHERE connections.joined IS NOT NULL
ORDER BY requests.hung DESC, requests.cause_nanos DESC, captures.path, requests.connection, requests.stream;

-- Whose the time of front requests was, by hops of a capture; percent is of all that is told of the hop.
CREATE VIEW time_by_who AS
SELECT captures.path, hops.position AS hop, hops.front, hops.back, leg_times.who, leg_times.why,
       COUNT(*) AS requests, MAX(leg_times.nanos) / 1e6 AS longest_milliseconds,
       TOTAL(leg_times.nanos) / 1e6 AS total_milliseconds,
       100.0 * TOTAL(leg_times.nanos) / NULLIF(SUM(TOTAL(leg_times.nanos)) OVER (
           PARTITION BY hops.capture, hops.position), 0) AS percent
FROM leg_times
JOIN legs ON legs.capture = leg_times.capture AND legs.connection = leg_times.connection
             AND legs.stream = leg_times.stream
JOIN hops ON hops.capture = legs.capture AND hops.position = legs.hop
JOIN captures ON captures.id = hops.capture
GROUP BY hops.capture, hops.position, leg_times.who, leg_times.why
ORDER BY captures.path, hops.position, TOTAL(leg_times.nanos) DESC, leg_times.who, leg_times.why;

-- The same of each pair of listeners, over all captures.
CREATE VIEW time_by_proxy AS
SELECT hops.front, hops.back, leg_times.who, leg_times.why, COUNT(*) AS requests,
       MAX(leg_times.nanos) / 1e6 AS longest_milliseconds, TOTAL(leg_times.nanos) / 1e6 AS total_milliseconds,
       100.0 * TOTAL(leg_times.nanos) / NULLIF(SUM(TOTAL(leg_times.nanos)) OVER (
           PARTITION BY hops.front, hops.back), 0) AS percent,
       COUNT(DISTINCT hops.capture) AS captures
FROM leg_times
JOIN legs ON legs.capture = leg_times.capture AND legs.connection = leg_times.connection
             AND legs.stream = leg_times.stream
JOIN hops ON hops.capture = legs.capture AND hops.position = legs.hop
GROUP BY hops.front, hops.back, leg_times.who, leg_times.why
ORDER BY hops.front, hops.back, TOTAL(leg_times.nanos) DESC, leg_times.who, leg_times.why;

-- The front requests of proxies, those first for which one party took most: what carried each, and whom to ask.
CREATE VIEW proxied_requests AS
SELECT captures.path, legs.connection, legs.stream, requests.name, requests.status, connections.client, hops.front,
       hops.back, requests.nanos / 1e6 AS milliseconds, legs.grade, legs.back_connection, legs.back_stream, legs.tries,
       legs.none_why, legs.ask, legs.ask_who AS who, legs.ask_why AS why, legs.ask_address AS address,
       legs.ask_nanos AS nanos, legs.ask_nanos / 1e6 AS ask_milliseconds,
       100.0 * legs.ask_nanos / NULLIF(requests.nanos, 0) AS percent
FROM legs
JOIN requests ON requests.capture = legs.capture AND requests.connection = legs.connection
                 AND requests.stream = legs.stream
JOIN connections ON connections.capture = legs.capture AND connections.number = legs.connection
JOIN hops ON hops.capture = legs.capture AND hops.position = legs.hop
JOIN captures ON captures.id = legs.capture
ORDER BY COALESCE(legs.ask_nanos, 0) DESC, captures.path, legs.connection, legs.stream;

-- Whom to ask about the front requests of proxies, by what took most of their lives; of a client its address.
CREATE VIEW asked_by_legs AS
SELECT ask,
       CASE ask WHEN 'client' THEN rtrim(rtrim(ask_address, '0123456789'), ':') ELSE ask_address END AS peer,
       ask_who AS who, ask_why AS why, COUNT(*) AS requests, MAX(ask_nanos) / 1e6 AS longest_milliseconds,
       TOTAL(ask_nanos) / 1e6 AS total_milliseconds, COUNT(DISTINCT capture) AS captures
FROM legs
WHERE ask_nanos IS NOT NULL
GROUP BY ask, peer, who, why
ORDER BY TOTAL(ask_nanos) DESC, ask, peer, who, why;

-- The requests that stood behind another one at a proxy, those first that stood longest; and whether that was of
-- another connection.
CREATE VIEW behind_others AS
SELECT captures.path, legs.connection, legs.stream, requests.name, connections.client,
       legs.behind_connection, legs.behind_stream, ahead.name AS behind_name, others.client AS behind_client,
       legs.behind_connection <> legs.connection AS of_other, legs.behind_how AS how, legs.behind_nanos AS nanos,
       legs.behind_nanos / 1e6 AS milliseconds, 100.0 * legs.behind_nanos / NULLIF(requests.nanos, 0) AS percent
FROM legs
JOIN requests ON requests.capture = legs.capture AND requests.connection = legs.connection
                 AND requests.stream = legs.stream
JOIN connections ON connections.capture = legs.capture AND connections.number = legs.connection
JOIN requests AS ahead ON ahead.capture = legs.capture AND ahead.connection = legs.behind_connection
                          AND ahead.stream = legs.behind_stream
JOIN connections AS others ON others.capture = legs.capture AND others.number = legs.behind_connection
JOIN captures ON captures.id = legs.capture
ORDER BY legs.behind_nanos DESC, captures.path, legs.connection, legs.stream;

-- What a client or an upstream did not read and the proxy passed on to the other leg, the longest first.
CREATE VIEW passed_on AS
SELECT captures.path, brakes.connection, brakes.stream, requests.name, hops.front, hops.back, brakes.side,
       CASE brakes.side WHEN 'client' THEN connections.client ELSE hops.back END AS endpoint,
       CASE brakes.side WHEN 'client' THEN hops.back ELSE connections.client END AS passed_to,
       brakes.passed_on_nanos AS nanos, brakes.passed_on_nanos / 1e6 AS milliseconds,
       brakes.after_nanos / 1e6 AS after_milliseconds, brakes.held
FROM brakes
JOIN legs ON legs.capture = brakes.capture AND legs.connection = brakes.connection AND legs.stream = brakes.stream
JOIN requests ON requests.capture = brakes.capture AND requests.connection = brakes.connection
                 AND requests.stream = brakes.stream
JOIN connections ON connections.capture = brakes.capture AND connections.number = brakes.connection
JOIN hops ON hops.capture = legs.capture AND hops.position = legs.hop
JOIN captures ON captures.id = brakes.capture
WHERE brakes.times_passed_on > 0
ORDER BY brakes.passed_on_nanos DESC, captures.path, brakes.connection, brakes.stream, brakes.position;
