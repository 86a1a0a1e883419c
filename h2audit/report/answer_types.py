"""What h2audit-why says to machines (docs/JSON.md), as types.

Made of companions/why/schema.json by `python3 -m tools.answer_types --write`.
"""

from typing import NotRequired, TypedDict


class AnswerSummary(TypedDict):
    verdict: str
    text: str
    packets: int
    connections: int
    audited: int
    requests: int
    faults: int
    doubtful: int
    held_back: int
    held_by_tcp: int
    hung: int
    begin: int
    nanos: int


class At(TypedDict):
    packet: int
    file: int
    time: int
    frame: int | None


class AnswerWarnings(TypedDict):
    kind: str
    text: str
    connection: int | None
    at: At | None


class NotAudited(TypedDict):
    reason: str
    count: int
    text: str


class JoinedWindowsOr(TypedDict):
    window: str
    stream: int | None


class JoinedWindows(TypedDict):
    side: str
    window: str
    stream: int | None
    credit: int
    least: int
    grade: str
    bits: int
    touches: int
    pause_nanos: int
    can_stall: bool


class Joined(TypedDict):
    exact: str | None
    after_gap: bool
    after_gap_of: int | None
    sides: str | None
    client: dict[str, int] | None
    server: dict[str, int] | None
    doubtful: bool
    open: list[int]
    windows: list[JoinedWindows]
    text: list[str]


class ConnectionRoundTripTcp(TypedDict):
    client: int | None
    server: int | None


class ConnectionRoundTripHttp2(TypedDict):
    client: int | None
    server: int | None


class ConnectionRoundTrip(TypedDict):
    nanos: int | None
    source: str | None
    tcp: ConnectionRoundTripTcp
    http2: ConnectionRoundTripHttp2


class ConnectionSettings(TypedDict):
    side: str
    initial_window: int
    at: At
    acknowledged: At | None


class Fault(TypedDict):
    kind: str
    side: str
    broke: str | None
    section: str | None
    stream: int
    value: int
    at: At
    certainty: str
    doubt: str | None
    set_by: list[At]
    set_by_text: str | None
    text: str


class Stall(TypedDict):
    side: str
    stream: int
    begin: At
    end: At | None
    nanos: int
    ended_by: str | None
    why: str
    ask: str
    late_nanos: int
    grade: str | None
    holder: dict[str, int] | None


class Ended(TypedDict):
    how: str
    side: str | None
    code: int | None
    code_name: str | None
    at: At | None


class Direction(TypedDict):
    nanos: int
    content: int
    shares: dict[str, int]
    stalls: int
    first: At | None
    end: At | None
    spans: list[tuple[int, int, str]] | None


class Cause(TypedDict):
    kind: str
    why: str | None
    side: str | None
    ask: str | None
    nanos: int
    first: At | None
    last: At | None
    text: str
    proved: bool
    grade: str | None


class Leg(TypedDict):
    connection: int
    stream: int
    grade: str
    why: str


class Carrier(TypedDict):
    connection: int
    stream: int
    grade: str
    why: str
    begin: int
    nanos: int


class LegsSums(TypedDict):
    who: str
    why: str | None
    nanos: int


class LegsAsk(TypedDict):
    party: str | None
    who: str
    why: str | None
    nanos: int
    connection: int | None
    stream: int | None
    address: str | None


class LegsBehind(TypedDict):
    connection: int
    stream: int
    how: str
    nanos: int


class BrakePassedOn(TypedDict):
    begin: int
    nanos: int
    by: str
    held: int
    after: int


class Brake(TypedDict):
    side: str
    begin: int
    nanos: int
    most_held: int
    passed_on: list[BrakePassedOn]


class Legs(TypedDict):
    carries: Leg | None
    carried_by: list[Carrier] | None
    none_why: str | None
    openings: int
    parts: list[tuple[int, int, str, str | None]] | None
    sums: list[LegsSums] | None
    ask: LegsAsk | None
    behind: LegsBehind | None
    brakes: list[Brake]
    text: list[str]


class Request(TypedDict):
    stream: int
    name: str | None
    method: str | None
    path: str | None
    authority: str | None
    status: int | None
    grpc_status: int | None
    grpc_status_name: str | None
    promised_on: int | None
    opened: At
    ended: Ended
    nanos: int
    client: Direction
    server: Direction
    hung: bool
    hung_nanos: int | None
    unanswered: bool
    end_unseen: bool
    opened_before: bool
    cause: Cause
    needed_window: int | None
    life: str | None
    legs: Legs | None


class Signal(TypedDict):
    word: str
    side: str
    code: int
    code_name: str
    stream: int
    last_stream: int | None
    debug: str | None
    at: At


class ConnectionGaps(TypedDict):
    side: str
    offset: int


class ChartsFlows(TypedDict):
    side: str
    bytes: int
    gap: int | None
    tail: int


class Finding(TypedDict):
    frame: int
    packet: int
    file: int | None
    time: int
    side: str
    kind: str
    stream: int
    value: int | None
    broke: str | None
    section: str | None
    text: str
    blame: str
    other: int | None


class Window(TypedDict):
    side: str
    stream: int
    changes: int
    least: int
    greatest: int
    last: int
    frames: list[int]
    times: list[int]
    credits: list[int]


class ChartsOtherWindows(TypedDict):
    number: int
    least: int | None
    greatest: int | None


class Charts(TypedDict):
    form: str
    record: int
    frames: int
    begin: int
    until: int
    flows: list[ChartsFlows]
    stopped_at: int | None
    findings: list[Finding]
    windows: list[Window]
    other_windows: ChartsOtherWindows


class Connection(TypedDict):
    number: int
    client: str
    server: str
    opened: At
    outcome: str
    joined: Joined | None
    reason: str | None
    tls: str | None
    frames: int
    begin: int
    nanos: int
    round_trip: ConnectionRoundTrip
    captured_at: str | None
    limits: list[str]
    settings: list[ConnectionSettings]
    faults: list[Fault]
    stalls: list[Stall]
    requests: list[Request]
    signals: list[Signal]
    ended: Ended
    stopped_at: At | None
    gaps: list[ConnectionGaps]
    uncaptured: dict[str, int]
    notes: list[str]
    charts: NotRequired[Charts]


class Asked(TypedDict):
    side: str | None
    peer: str | None
    kind: str
    why: str | None
    times: int
    connections: int
    longest: int
    nanos: int


class HopAsk(TypedDict):
    party: str
    who: str
    why: str | None
    nanos: int
    requests: int
    connection: int
    stream: int
    address: str | None


class Hop(TypedDict):
    front: str
    back: str
    requests: int
    back_requests: int
    grades: dict[str, int]
    time: dict[str, int]
    ask: HopAsk | None
    text: str


class Answer(TypedDict):
    h2audit_why: int
    files: list[str]
    summary: AnswerSummary
    warnings: list[AnswerWarnings]
    not_audited: list[NotAudited]
    connections: list[Connection]
    h2audit_charts: NotRequired[int]
    capture: NotRequired[dict[str, int]]
    asked: NotRequired[list[Asked]]
    hops: list[Hop]


class Line(TypedDict):
    h2audit_why: int
    connection: int
    client_address: str
    server_address: str
    stream: int
    name: str | None
    method: str | None
    path: str | None
    authority: str | None
    status: int | None
    grpc_status: int | None
    grpc_status_name: str | None
    promised_on: int | None
    opened: At
    ended: Ended
    nanos: int
    client: Direction
    server: Direction
    hung: bool
    hung_nanos: int | None
    unanswered: bool
    end_unseen: bool
    opened_before: bool
    cause: Cause
    needed_window: int | None
    life: str | None
    legs: Legs | None


class Compared(TypedDict):
    connection: int
    stream: int
    opened: At
    nanos: int
    stalled_nanos: int
    tcp_nanos: int
    hung: bool
    status: int | None
    grpc_status: int | None
    cause: Cause


class CompareBeforeSummary(TypedDict):
    verdict: str
    text: str
    packets: int
    connections: int
    audited: int
    requests: int
    faults: int
    doubtful: int
    held_back: int
    held_by_tcp: int
    hung: int
    begin: int
    nanos: int


class CompareBefore(TypedDict):
    files: list[str]
    summary: CompareBeforeSummary
    warnings: list[str]


class CompareAfterSummary(TypedDict):
    verdict: str
    text: str
    packets: int
    connections: int
    audited: int
    requests: int
    faults: int
    doubtful: int
    held_back: int
    held_by_tcp: int
    hung: int
    begin: int
    nanos: int


class CompareAfter(TypedDict):
    files: list[str]
    summary: CompareAfterSummary
    warnings: list[str]


class CompareRequests(TypedDict):
    name: str
    method: str | None
    path: str | None
    turn: int
    of: int
    change: str | None
    life_change: str | None
    before: Compared | None
    after: Compared | None


class CompareFaults(TypedDict):
    broke: str
    kind: str
    before: int
    after: int


class Compare(TypedDict):
    h2audit_why_compare: int
    before: CompareBefore
    after: CompareAfter
    stalled_nanos: dict[str, int]
    unnamed: dict[str, int]
    requests: list[CompareRequests]
    faults: list[CompareFaults]


class EndsClientSummary(TypedDict):
    verdict: str
    text: str
    packets: int
    connections: int
    audited: int
    requests: int
    faults: int
    doubtful: int
    held_back: int
    held_by_tcp: int
    hung: int
    begin: int
    nanos: int


class EndsClient(TypedDict):
    files: list[str]
    summary: EndsClientSummary
    warnings: list[str]
    alone: list[int]


class EndsServerSummary(TypedDict):
    verdict: str
    text: str
    packets: int
    connections: int
    audited: int
    requests: int
    faults: int
    doubtful: int
    held_back: int
    held_by_tcp: int
    hung: int
    begin: int
    nanos: int


class EndsServer(TypedDict):
    files: list[str]
    summary: EndsServerSummary
    warnings: list[str]
    alone: list[int]


class EndsConnectionsClient(TypedDict):
    number: int
    client: str
    server: str


class EndsConnectionsServer(TypedDict):
    number: int
    client: str
    server: str


class EndsConnectionsRequestsAsked(TypedDict):
    client: At | None
    server: At | None


class EndsConnectionsRequestsAnswered(TypedDict):
    client: At | None
    server: At | None


class EndsConnectionsRequestsSentAgain(TypedDict):
    client: dict[str, int]
    server: dict[str, int]


class EndsConnectionsRequests(TypedDict):
    stream: int
    name: str | None
    nanos: int
    asked: EndsConnectionsRequestsAsked
    answered: EndsConnectionsRequestsAnswered
    request: int | None
    way_out: int | None
    server: int | None
    way_back: int | None
    transfer: int | None
    sent_again: EndsConnectionsRequestsSentAgain


class EndsConnectionsStallsBegin(TypedDict):
    client: At | None
    server: At | None


class EndsConnectionsStallsEnd(TypedDict):
    client: At | None
    server: At | None


class EndsConnectionsStalls(TypedDict):
    side: str
    stream: int
    nanos: int
    begin: EndsConnectionsStallsBegin
    end: EndsConnectionsStallsEnd
    shows_at_both: bool
    content_on_way: int
    grants_on_way: int
    way_out: int | None
    answer: int | None
    way_back: int | None
    verdict: str
    ask: str | None
    text: str


class EndsConnectionsFaults(TypedDict):
    shown_by: str
    kind: str
    side: str
    broke: str | None
    section: str | None
    stream: int
    value: int
    at: At
    certainty: str
    doubt: str | None
    set_by: list[At]
    set_by_text: str | None
    text: str


class EndsConnections(TypedDict):
    client: EndsConnectionsClient
    server: EndsConnectionsServer
    round_trip: int
    server_ahead: int
    within: int
    drifts: bool
    lost: list[str]
    requests: list[EndsConnectionsRequests]
    stalls: list[EndsConnectionsStalls]
    faults: list[EndsConnectionsFaults]


class Ends(TypedDict):
    h2audit_why_ends: int
    client: EndsClient
    server: EndsServer
    connections: list[EndsConnections]


class WindowsReport(TypedDict):
    lines: int
    cut: int | None
    unopened: int
    unopened_segments: int


class WindowsConnections(TypedDict):
    number: int
    client: str
    server: str
    charts: Charts


class Windows(TypedDict):
    h2audit_charts: int
    capture: dict[str, int]
    asked: list[Asked]
    report: WindowsReport
    not_audited: list[NotAudited]
    connections: list[WindowsConnections]
