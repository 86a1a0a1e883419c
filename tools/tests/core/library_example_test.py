"""Runs the library example of h2audit's lib.rt, by a build without proof.

    python3 -m tools.tests.core.library_example_test

The example is the block ```rust of the crate's comment. It stands as it is in a test of its own crate, over a capture
of examples/, and has to give the report beside it.
"""

import pathlib
import re
import subprocess
import sys
import tempfile

TOP = pathlib.Path(__file__).resolve().parents[3]
EXAMPLE = re.compile(r"^//! ```rust\n(.*?)^//! ```$", re.M | re.S)
NAME = "library_example"
CAPTURE = TOP / "examples" / "use_after_reset"

TEST = """#![tactic(auto)]

#[cfg(test)]
mod tests {{
    use h2audit::{{NoGate, Options, Verdict, audit}};
    use std::test::Fail;

    const CAPTURE: [u8; {size}] = [{bytes}];

    const REPORT: &str = "{report}";

    #[test]
    fn library_example(rt: HostRuntime) -> Result<(), Fail> {{
        let capture = CAPTURE;
{example}
        assert_eq!(&rt; String::from_utf8(report)?.as_str(), REPORT);
        assert!(&rt; matches!(verdict, Verdict::Faults));
        Ok(())
    }}
}}
"""


def example() -> str:
    """The lines of the example, without the signs of a comment."""
    blocks = EXAMPLE.findall((TOP / "crates" / "h2audit" / "src" / "lib.rt").read_text())
    if len(blocks) != 1:
        sys.exit(f"h2audit's comment has {len(blocks)} examples")
    return "\n".join(" " * 8 + line.removeprefix("//! ").removeprefix("//!") for line in blocks[0].splitlines())


def lay_out(folder: pathlib.Path) -> None:
    """Writes a repository of the example's crate and of those that it stands on."""
    (folder / "crates" / NAME / "src").mkdir(parents=True)
    for crate in (TOP / "crates").iterdir():
        (folder / "crates" / crate.name).mkdir()
        for part in ("src", "specs", "proofs"):
            if (crate / part).is_dir():
                (folder / "crates" / crate.name / part).symlink_to(crate / part)
    (folder / "crates.txt").write_text((TOP / "crates.txt").read_text() + f"{NAME}: h2audit\n")
    (folder / "HANDLES").write_text((TOP / "HANDLES").read_text())
    capture = CAPTURE.with_suffix(".pcap").read_bytes()
    (folder / "crates" / NAME / "src" / "lib.rt").write_text(
        TEST.format(
            size=len(capture),
            bytes=", ".join(map(str, capture)),
            example=example(),
            report=CAPTURE.with_suffix(".report").read_text(),
        )
    )


def main() -> None:
    with tempfile.TemporaryDirectory() as room:
        folder = pathlib.Path(room)
        lay_out(folder)
        ran = subprocess.run(
            ["rt", "try", "--test"],
            cwd=folder / "crates" / NAME,
            capture_output=True,
            text=True,
            stdin=subprocess.DEVNULL,
        )
        if ran.returncode != 0 or "library_example" not in ran.stdout + ran.stderr:
            sys.exit(f"the library example failed:\n{ran.stdout}{ran.stderr}")
    print("the library example gives its report")


if __name__ == "__main__":
    main()
