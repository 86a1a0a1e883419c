"""What is right and what is wrong in h2audit-why's answer on both legs, by the truth of a capture."""

from collections import Counter
from dataclasses import dataclass, field
from typing import Any

from tools.tests.why.legs_stage import Truth
from tools.tests.why.legs_truth import Request
from tools.tests.why_tools import Json

Pairs = set[tuple[Request, Request]]
GRADES = ("sure", "likely", "ambiguous")
# A part that a script set is found if so much of it is.
MOST = 0.8
NANOS = 1_000_000_000
# A window is too small for a round trip, or granted late.
WINDOW = {"round-trip": "stall"}
# What is shorter is nobody's to be asked for, in nanoseconds.
LEAST = 10_000_000


@dataclass
class Judgement:
    """How many pairs are right and wrong by their grades, and what is wrong of the rest, in words."""

    # Front requests that a back request carried, by the truth.
    fronts: int = 0
    right: Counter[str] = field(default_factory=Counter)
    wrong: Counter[str] = field(default_factory=Counter)
    # Without a partner though there is one, by what is said of it.
    without: Counter[str] = field(default_factory=Counter)
    asked: int = 0
    asked_right: int = 0
    passed: int = 0
    passed_right: int = 0
    # Each wrong pair that is not called ambiguous, whom to ask, passed-on, tries; and sums that do not hold.
    pairs: list[str] = field(default_factory=list)
    asks: list[str] = field(default_factory=list)
    rest: list[str] = field(default_factory=list)
    sums: list[str] = field(default_factory=list)

    def __iadd__(self, other: "Judgement") -> "Judgement":
        for name in vars(self):
            setattr(self, name, getattr(self, name) + getattr(other, name))
        return self


def request_of(connection: Json, stream: int) -> Request:
    return Request(connection["client"], connection["server"], stream)


class LegsAnswer:
    """The requests of an answer, by what they are in the truth."""

    def __init__(self, found: Json) -> None:
        self.hops = found.get("hops", [])
        numbers = {one["number"]: one for one in found["connections"]}
        self.connections = numbers
        self.requests = {
            request_of(one, asked["stream"]): asked for one in numbers.values() for asked in one["requests"]
        }

    def at(self, place: Json) -> Request:
        return request_of(self.connections[place["connection"]], place["stream"])

    def carried_by(self, one: Request) -> list[tuple[Request, str]]:
        """The back requests that are said to have carried one, with their grades."""
        legs = self.requests[one]["legs"] or {}
        return [(self.at(place), place["grade"]) for place in legs.get("carried_by") or []]

    def of_path(self, server: str, path: str) -> tuple[Request, Json]:
        some = [
            (one, asked)
            for one, asked in self.requests.items()
            if one.server == server and (asked["path"] or "").split("?")[0] == path
        ]
        if len(some) != 1:
            raise AssertionError(f"{len(some)} requests of {path}")
        return some[0]


def judged(found: Json, front: str, truths: list[Truth], pairs: Pairs) -> Judgement:
    """Judges an answer by what is true of requests to the first proxy, and by all pairs."""
    made = Judgement()
    answer = LegsAnswer(found)
    judge_pairs(made, answer, pairs)
    for truth in truths:
        judge_truth(made, answer, front, truth)
    judge_sums(made, answer)
    return made


def judge_pairs(made: Judgement, answer: LegsAnswer, pairs: Pairs) -> None:
    backs: dict[Request, set[Request]] = {}
    fronts: dict[Request, Request] = {}
    for front, back in pairs:
        backs.setdefault(front, set()).add(back)
        fronts[back] = front
    made.fronts += len(backs)
    for front, asked in answer.requests.items():
        said = answer.carried_by(front)
        # What is true of a try without content is not known, unless it is another's.
        wrong = [grade for back, grade in said if fronts.get(back, front) != front]
        if front in backs and said and said[-1][0] not in backs[front]:
            wrong.append(said[-1][1])
        if wrong:
            grade = min(wrong, key=GRADES.index)
            made.wrong[grade] += 1
            if grade != "ambiguous":
                found, true = ", ".join(name(one) for one, _ in said), ", ".join(map(name, backs.get(front, [])))
                made.pairs.append(f"{name(front)} {asked['path']}: {grade} {found}, not {true or 'so'}")
        elif said and front in backs:
            made.right[said[-1][1]] += 1
        elif front in backs:
            why = (asked["legs"] or {}).get("none_why") or "nothing"
            made.without[why] += 1
            if why == "answered-itself":
                made.pairs.append(f"{name(front)} {asked['path']}: {why}, not {', '.join(map(name, backs[front]))}")


def name(one: Request) -> str:
    return f"{one.client} stream {one.stream}"


def judge_truth(made: Judgement, answer: LegsAnswer, server: str, truth: Truth) -> None:
    front, asked = answer.of_path(server, truth.path)
    legs: Json = asked["legs"] or {}
    said = answer.carried_by(front)
    if truth.tries is not None and len(said) != truth.tries:
        made.rest.append(f"{truth.path}: carried {len(said)} times, not {truth.tries}")
    if truth.tries == 0 and legs.get("none_why") != "answered-itself":
        made.rest.append(f"{truth.path}: {legs.get('none_why')}, not answered-itself")
    if truth.ask:
        wrong = wrong_ask(answer, server, truth, asked)
        made.asked += 1
        made.asked_right += not wrong
        made.asks += [f"{truth.path}: {why}" for why in wrong]
    elif is_behind(asked):
        made.rest.append(f"{truth.path}: behind another, which it was not")
    if truth.passed_on is not None:
        passed_on = any(brake["passed_on"] for brake in legs.get("brakes") or [])
        made.passed += 1
        made.passed_right += passed_on == truth.passed_on
        if passed_on != truth.passed_on:
            made.rest.append(f"{truth.path}: passed on {passed_on}, not {truth.passed_on}")


def is_behind(asked: Json) -> bool:
    """Whether it is said that a request stood behind another one for as long as matters."""
    behind: Json = (asked["legs"] or {}).get("behind") or {"nanos": 0}
    return bool(behind["nanos"] >= max(LEAST, asked["nanos"] / 10))


def wrong_ask(answer: LegsAnswer, server: str, truth: Truth, asked: Json) -> list[str]:
    legs: Json = asked["legs"] or {}
    ask: Json = legs.get("ask") or {}
    wrong = []
    if truth.ask == "nobody":
        return [f"ask {ask['party']} ({ask['who']}, {ask['why']}), not nobody"] if ask.get("party") else []
    if ask.get("party") != truth.ask:
        wrong.append(f"ask {ask.get('party')} ({ask.get('who')}, {ask.get('why')}), not {truth.ask}")
    elif truth.why and truth.why != WINDOW.get(ask["why"], ask["why"]):
        wrong.append(f"{ask['party']} ({ask['who']}, {ask['why']}), not {truth.why}")
    elif ask["nanos"] < MOST * truth.seconds * NANOS:
        wrong.append(f"{ask['nanos'] / NANOS:.3f} s of {truth.ask}, not {truth.seconds}")
    if truth.behind is None:
        return wrong + (["behind another, which it was not"] if is_behind(asked) else [])
    place = answer.at(legs["behind"]) if is_behind(asked) else None
    wanted, _ = answer.of_path(server, truth.behind)
    if place != wanted:
        wrong.append(f"behind {place and name(place)}, not {truth.behind}")
    return wrong


def judge_sums(made: Judgement, answer: LegsAnswer) -> None:
    """Parts follow each other, and sum to the life to the nanosecond; so do the sums by who and why."""
    for one, asked in answer.requests.items():
        legs = asked["legs"] or {}
        if legs.get("sums") is not None and sum(part["nanos"] for part in legs["sums"]) != asked["nanos"]:
            made.sums.append(f"{name(one)}: sums do not sum to the life")
        if legs.get("parts") is not None and not parts_hold(legs["parts"], legs["sums"], asked["nanos"]):
            made.sums.append(f"{name(one)}: parts do not sum to the life")
        grades = {grade for _, grade in answer.carried_by(one)}
        if asked["nanos"] and grades and "ambiguous" not in grades and legs.get("sums") is None:
            made.sums.append(f"{name(one)}: no sums")


def parts_hold(parts: list[list[Any]], sums: list[Json] | None, life: int) -> bool:
    at, by = 0, Counter[tuple[str, Any]]()
    for begin, nanos, who, why in parts:
        if begin != at or nanos < 0:
            return False
        at += nanos
        by[who, why] += nanos
    return at == life and +by == +Counter({(one["who"], one["why"]): one["nanos"] for one in sums or []})
