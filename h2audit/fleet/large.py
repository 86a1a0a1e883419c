"""Tasks of large captures: each is imported, what is made is split where it is large, audited in parts, and merged.

    import_first  the import of a capture, into a folder that all workers share
    split         what an import made, into parts, in such a folder
    part          the audit of one part
    merge         the reports of the parts into that of the whole, and of an import back to that of the original
    in_parts      all of them, where workers share no folder

A worker needs this module, which is sent to it: it imports the standard library, and what is sent beside it.
"""

import os
import tempfile
import time
from typing import IO

from h2audit.fleet import programs
from h2audit.fleet.tasks import (
    AUDIT,
    CHANGED,
    IMPORT,
    IMPORT_ALONE,
    MERGE,
    REFUSED,
    SPLIT,
    Order,
    TaskAnswer,
    Unread,
    are_requests_wanted,
    named,
    on_capture,
    opened,
    parts_of,
    run_on,
    state_of,
    told,
    verdict,
    while_unchanged,
    with_joined,
    without_requests,
    words_of_keys,
    words_of_requests,
    worker_name,
)

# What stands in the folder of an import.
MADE, MAP, REPORT = (f"imported.{kind}" for kind in ("pcap", "map", "report"))


def import_first(path: bytes, folder: str, order: Order) -> TaskAnswer:
    """Imports a capture, for an answer with what was made and its map, which stand in a folder."""
    return on_capture(path, lambda file: while_unchanged(file, lambda name: import_file(file, name, folder, order)))


def import_file(file: int, name: str, folder: str, order: Order) -> TaskAnswer:
    made, map_file = (os.path.join(folder, each) for each in (MADE, MAP))
    words = [IMPORT_ALONE, *words_of_keys(order), "-o", made, "-m", map_file, name]
    with tempfile.TemporaryFile() as output:
        answer = run_on(words, output, order, [file])
    if answer["outcome"] != "audited":
        return answer
    return answer | TaskAnswer(outcome="imported", made=made, made_size=os.path.getsize(made), map=map_file)


def split(imported: TaskAnswer, folder: str, parts: int, order: Order) -> TaskAnswer:
    """Splits what an import made, for an answer about the original with the parts that stand."""
    begin = time.monotonic()
    answer = TaskAnswer(outcome="failed", status=None, worker=worker_name())
    try:
        with tempfile.TemporaryFile() as output:
            words = [SPLIT, "--parts", str(parts), "-o", folder, imported["made"]]
            answer |= verdict(programs.run(words, output, order["timeout"]))
        answer |= split_into(folder, parts, answer)
    except (programs.NoProgram, OSError) as why:
        answer |= failed(why)
    whole = TaskAnswer(program=imported["program"], map=imported["map"])
    return answer | original_of(imported) | whole | TaskAnswer(seconds=time.monotonic() - begin)


def original_of(imported: TaskAnswer) -> TaskAnswer:
    """The capture that an answer is about."""
    return TaskAnswer(size=imported["size"], modified=imported["modified"], sha256=imported["sha256"])


def failed(why: Exception) -> TaskAnswer:
    return TaskAnswer(outcome="failed", status=None, reason=named(why))


def split_into(folder: str, parts: int, answer: TaskAnswer) -> TaskAnswer:
    """What a split that came to its end gave."""
    refused = refused_parts(folder)
    if refused is None or answer["outcome"] == "failed":
        return TaskAnswer(outcome="failed", reason="no-parts") if answer["outcome"] == "audited" else TaskAnswer()
    standing = [part for part in range(1, parts + 1) if part not in refused]
    return {"outcome": "split", "folder": folder, "standing": standing, "reason": "; ".join(refused.values()) or None}


def refused_parts(folder: str) -> dict[int, str] | None:
    """The parts that were refused, each with its reason; nothing where the split did not come to its end."""
    try:
        with open(os.path.join(folder, "split.txt"), encoding="ascii") as file:
            lines = [line.split() for line in file]
    except (OSError, ValueError):
        return None
    return {int(words[1]): " ".join(words[3:]) for words in lines if words[0] == "part" and words[2] == "refused"}


def part(folder: str, number: int, order: Order) -> TaskAnswer:
    """The audit of one part, whose report stands beside it afterwards."""
    name = os.path.join(folder, f"part-{number:03d}")
    try:
        with open(name + ".report", "w+b") as output:
            words = [AUDIT, "--workers", "1", name + ".pcap"]
            run = programs.run(words, output, order["timeout"])
    except (programs.NoProgram, OSError) as why:
        return failed(why) | TaskAnswer(worker=worker_name())
    return verdict(run) | TaskAnswer(worker=worker_name(), seconds=run.seconds)


def merge(path: bytes, divided: TaskAnswer, order: Order) -> TaskAnswer:
    """The report of the whole, of the answer of a split, or of an import that needed none; and where connections began
    before the capture, that of the capture with these, in no parts.
    """
    begin = time.monotonic()
    whole = original_of(divided) | TaskAnswer(program=IMPORT, worker=worker_name())
    answer = TaskAnswer(outcome="failed", status=None)
    try:
        with open(os.path.join(os.path.dirname(divided["map"]), REPORT), "w+b") as report:
            answer |= verdict(programs.run(words_of_merge(divided), report, order["timeout"]))
            if answer["outcome"] == "audited":
                answer |= of_original(path, divided, report, order)
        answer |= of_refused_parts(divided, answer)
        answer = joined_too(path, divided, answer, order)
    except (Unread, programs.NoProgram, OSError) as why:
        answer |= failed(why)
    return answer | whole | TaskAnswer(seconds=time.monotonic() - begin)


def joined_too(path: bytes, divided: TaskAnswer, answer: TaskAnswer, order: Order) -> TaskAnswer:
    """With the connections that began before the capture, where it is still the capture that was imported."""
    if not answer.get("may_be_joined"):
        return answer
    file = opened(path)
    try:
        if state_of(file) != (divided["size"], divided["modified"]):
            return {"outcome": "failed", "status": None, "reason": CHANGED}
        return with_joined(file, answer, order)
    finally:
        os.close(file)


def words_of_merge(divided: TaskAnswer) -> list[str]:
    """What gives the report: the merge of the parts that stand, or the audit of what an import made."""
    if divided["outcome"] == "imported":
        return [AUDIT, "--workers", "1", divided["made"]]
    return [MERGE, *["--standing"] * bool(divided["reason"]), divided["folder"]]


def of_refused_parts(divided: TaskAnswer, answer: TaskAnswer) -> TaskAnswer:
    """What parts that were refused say of the whole, where the others stand."""
    reasons = [reason for reason in (divided["reason"], answer["reason"]) if reason]
    if answer["outcome"] not in ("audited", "partial") or not divided["reason"]:
        return {}
    return {"outcome": "partial", "status": REFUSED, "reason": "; ".join(reasons)}


def of_original(path: bytes, divided: TaskAnswer, report: IO[bytes], order: Order) -> TaskAnswer:
    """The report of what an import made, as one about the original, and its requests where they are wanted."""
    untold = TaskAnswer()
    if are_requests_wanted(order):
        answer = with_requests(path, divided, report.name, order)
        if answer["outcome"] == "audited" or answer["reason"] == CHANGED:
            return answer
        untold = without_requests(answer)
    report.seek(0)
    answer = told([IMPORT, "--map", divided["map"]], order, source=report)
    return answer | untold if answer["outcome"] == "audited" else answer


def with_requests(path: bytes, divided: TaskAnswer, report: str, order: Order) -> TaskAnswer:
    """What h2audit-why tells of the capture and its report, where it is still the capture that was imported."""
    apart = order.copy()
    apart["joined"] = False
    file = opened(path)
    try:
        answer = told([*words_of_requests(apart), "--audit", report], order, [file])
        if state_of(file) != (divided["size"], divided["modified"]):
            return {"outcome": "failed", "status": None, "reason": CHANGED}
        return answer
    finally:
        os.close(file)


def in_parts(path: bytes, order: Order) -> TaskAnswer:
    """A large capture on one worker, in a folder of its own."""
    begin = time.monotonic()
    with tempfile.TemporaryDirectory(prefix="h2audit-fleet-") as folder:
        answer = import_first(path, folder, order)
        if parts := parts_of(answer.get("made_size"), order):
            made = answer["made"]
            answer = split(answer, os.path.join(folder, "parts"), parts, order)
            # Its parts take its room.
            os.unlink(made)
        answer = in_its_parts(path, answer, order)
    return answer | TaskAnswer(seconds=time.monotonic() - begin)


def in_its_parts(path: bytes, divided: TaskAnswer, order: Order) -> TaskAnswer:
    """The audits of the parts, one after the other, and the merge."""
    if divided["outcome"] not in ("imported", "split"):
        return divided
    for number in divided.get("standing", ()):
        one = part(divided["folder"], number, order)
        if one["outcome"] != "audited":
            return divided | of_part(number, one)
    return merge(path, divided, order)


def of_part(number: int, answer: TaskAnswer) -> TaskAnswer:
    """What the failure of a part says of the whole."""
    return {"outcome": "failed", "status": answer["status"], "reason": f"part {number}: {answer['reason']}"}
