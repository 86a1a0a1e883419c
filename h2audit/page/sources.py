"""Where a page comes from: a report, or captures, which h2audit-why audits and explains in one run."""

from argparse import Namespace
from typing import BinaryIO

from h2audit.page.model import Audit, audit_of_answer, read_audit
from h2audit.report.charts import document_of
from h2audit.report.command import WRONG_WORDS, Failed, opened
from h2audit.report.interrupts import while_waiting
from h2audit.report.programs import program_named
from h2audit.report.progress import progress

# No fault, a fault, and nothing that could be audited: then too the page says what there was.
AUDITED = (0, 1, 6)
# So many bytes tell text from what is none.
LOOKED_AT = 64


def audit_of(asked: Namespace) -> Audit:
    """The audit of a report, or of captures with what h2audit-why says of them."""
    first = asked.files[0]
    with opened(first) as file:
        if is_text(file):
            if len(asked.files) > 1:
                raise Failed(WRONG_WORDS, f"{first} is a report, and stands alone, without {asked.files[1]}")
            if asked.key_log or asked.no_requests or asked.sort or asked.reorder:
                words = "-k, --sort, --reorder and --no-requests"
                raise Failed(WRONG_WORDS, f"{first} is a report, and {words} are for captures")
            return read_audit(file)
        if first == "-":
            return of_captures(asked, file)
    if "-" in asked.files:
        with opened("-") as file:
            return of_captures(asked, file)
    return of_captures(asked, None)


def is_text(file: BinaryIO) -> bool:
    """A report is text that begins with its capture's counts; all that is text is read as one, or refused as none."""
    with progress() as line, while_waiting(lambda: line.tell("reading")):
        begin = file.peek(LOOKED_AT)[:LOOKED_AT]  # type: ignore[attr-defined]
    return all(octet in b"\r\n\t" or 32 <= octet < 127 for octet in begin)


def of_captures(asked: Namespace, standard_input: BinaryIO | None) -> Audit:
    words = [word for log in asked.key_log for word in ("-k", log)]
    words += ["--sort"] * asked.sort + ["--reorder"] * asked.reorder + ["--no-requests"] * asked.no_requests
    words += ["--charts", "--h2audit", program_named("h2audit"), "--", *asked.files]
    return audit_of_answer(document_of(words, standard_input, AUDITED))
