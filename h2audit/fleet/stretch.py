"""What a worker does with a stretch of a ring: files that follow each other, audited together as one capture."""

import os
import time
from contextlib import ExitStack

from h2audit.fleet import programs
from h2audit.fleet.tasks import Order, TaskAnswer, Unread, named, opened, state_of, told, words_of_requests, worker_name

OVERWRITTEN, NOT_THERE = "overwritten", "not-there"
# A file by its name, its size and the time of its last change.
File = tuple[bytes, int, int]


def audit(files: list[File], order: Order) -> TaskAnswer:
    """What h2audit-why tells of files in their order. Where one is another by now, its place among them is `lost`."""
    begin = time.monotonic()
    answer = TaskAnswer(outcome="failed", status=None, reason=None, program=None, worker=worker_name())
    with ExitStack() as held:
        numbers: list[int] = []
        try:
            for path, *state in files:
                numbers.append(opened(path))
                held.callback(os.close, numbers[-1])
                if [*state_of(numbers[-1])] != state:
                    return answer | lost(len(numbers) - 1)
            answer |= told(words_of_requests(order), order, numbers)
            changed = [place for place, number in enumerate(numbers) if [*state_of(number)] != [*files[place][1:]]]
            if changed:
                return answer | lost(changed[0])
        except Unread as why:
            answer |= lost(len(numbers)) if str(why) == NOT_THERE else TaskAnswer(reason=str(why))
        except (programs.NoProgram, OSError) as why:
            answer |= TaskAnswer(outcome="failed", status=None, reason=named(why))
    size, modified = sum(file[1] for file in files), files[-1][2]
    return answer | TaskAnswer(size=size, modified=modified, seconds=time.monotonic() - begin)


def lost(place: int) -> TaskAnswer:
    return {"outcome": "failed", "status": None, "reason": OVERWRITTEN, "lost": place}
