"""Reads small definitions by tools/definitions, and compares what they say with what is written here by hand: of claims
whether they are shown (True), refuted (False) or neither (None), of text that cannot be read the file and the line."""

import pathlib
import re
import tempfile
import unittest
from functools import partial
from random import Random

from tools.definitions.evaluating import Definitions
from tools.definitions.reading import Unreadable, read
from tools.definitions.running import deeply
from tools.definitions.values import NotYet, Stuck

TOP = pathlib.Path(__file__).resolve().parents[3]
DAMAGED = 300

PRELUDE = """use Rattle.std.specs.Prelude.{ℕ, zero, suc, ◌+◌, ◌-◌, ◌*◌, ◌/◌, ◌%◌, ◌^◌, ◌<◌, ◌≤◌, ◌==◌, nat_lt}
use Rattle.std.specs.Prelude.{ℤ, pos, ◌+ℤ◌}
use Rattle.std.specs.Prelude.{◌-ℤ◌, ◌≡◌, ◌⊎◌, Bool, true, false, not, ◌&&◌, ◌||◌, if◌then◌else◌, IsTrue, List, []}
use Rattle.std.specs.Prelude.{◌∷◌, ◌++◌, length, take, drop, map, find, slice_get, slice_index}
use Rattle.std.specs.Prelude.{Option, Some, None, codes}
use Rattle.std.specs.Prelude.{IsSomeAnd}
use Rattle.std.specs.Fmt.{decimal, signed_decimal}
"""

DEFINITIONS = """
-- six up to 5, and then seven
stays : ℕ → ℕ
stays zero = 6
stays (suc n) = if nat_lt 4 n then 7 else stays n

double : ℕ → ℕ
double zero = 0
double (suc n) = 2 + double n

count : ℕ → ℕ → ℕ
count zero so_far = so_far
count (suc n) so_far = count n (so_far + 1)

sum : List ℕ → ℕ
sum [] = 0
sum (x ∷ xs) = x + sum xs

-- the first clause that matches
kind : ℕ → List ℕ → ℕ
kind zero _ = 1
kind n [] = 2
kind (suc zero) (x ∷ _) = 3 + x
kind _ _ = 4

shade : Option ℕ → ℕ
shade None = 0
shade (Some n) = n

record Point : Type 0 where
  pub x : ℕ
  pub y : ℕ

origin : Point
origin = record { x = 0; y = 0 }

record PointsAreFew : Type 0 where
  each : (p : Point) → p.x ≡ 0

record SomePoint : Type 0 where
  point : Point
  is : point ≡ origin

record Wrong : Type 0 where
  wrong : 1 ≡ 2

-- a list, and how long it is
record IsFront (whole front : List ℕ) (size : ℕ) : Type 0 where
  rest : List ℕ
  sized : length front ≡ size
  whole_is : whole ≡ front ++ rest
"""

# Claims, and whether each is shown.
CLAIMS = [
    # infix words
    ("2 + 3 * 4 ≡ 14", True),
    ("2 ^ 3 ^ 2 ≡ 512", True),
    ("7 - 2 - 1 ≡ 4", True),
    ("1 - 2 ≡ 0", True),
    ("17 / 3 % 3 ≡ 2", True),
    ("1 ∷ 2 ∷ [] ++ 3 ∷ [] ≡ 1 ∷ 2 ∷ 3 ∷ []", True),
    ("IsTrue (true || true && false)", True),
    ("pos 1 -ℤ pos 3 +ℤ pos 1 ≡ pos 0 -ℤ pos 1", True),
    ("IsTrue (1 + 1 == 2 && not (nat_lt 2 2))", True),
    ("1 ≡ 2", False),
    ("0x1f ≡ 31", True),
    ('decimal 120 ++ signed_decimal (pos 1 -ℤ pos 9) ≡ codes "120-8"', True),
    # functions, records, data
    ("kind 0 [] ∷ kind 5 [] ∷ kind 1 (4 ∷ []) ∷ kind 2 (4 ∷ []) ∷ [] ≡ 1 ∷ 2 ∷ 7 ∷ 4 ∷ []", True),
    ("map shade (None ∷ Some 5 ∷ []) ≡ 0 ∷ 5 ∷ []", True),
    ("map Some (1 ∷ []) ≡ Some 1 ∷ []", True),
    ("None ≡ Some 0", False),
    ("(record origin { y = 3 }).y ≡ 3", True),
    ("record origin { y = 0 } ≡ origin", True),
    ("origin ≡ record { x = 1; y = 0 }", False),
    ("let n = 4 in sum (map (λ k. k * n) (1 ∷ 2 ∷ [])) ≡ 12", True),
    ("(if false then 1 else if true then 2 else 3) ≡ 2", True),
    ("(1, true).0 ≡ 1", True),
    ("slice_index (5 ∷ []) 1 ≡ 0", True),
    ("take 9 (1 ∷ []) ≡ 1 ∷ []", True),
    ("drop 2 (1 ∷ []) ≡ []", True),
    ("find (nat_lt 2) (1 ∷ 3 ∷ 4 ∷ []) ≡ Some 3", True),
    ("slice_get (1 ∷ []) 1 ≡ None", True),
    # all numbers, and some
    ("(n : ℕ) → n < 10 → n < 11", True),
    ("(n : ℕ) → n < 11 → n < 10", False),
    ("(n : ℕ) → n < 2 ^ 31 → n % 2 ^ 32 ≡ n", True),
    ("(n : ℕ) → (n + (2 ^ 32 - 5)) % 2 ^ 32 ≡ (if nat_lt n 5 then n + (2 ^ 32 - 5) else n - 5)", False),
    ("(n : ℕ) → n < 2 ^ 32 → (n + (2 ^ 32 - 5)) % 2 ^ 32 ≡ (if nat_lt n 5 then n + (2 ^ 32 - 5) else n - 5)", True),
    ("(n : ℕ) → n < 5 → n * n ≡ n", False),
    ("(n : ℕ) → n * 2 ≡ n", None),
    ("(n : ℕ) → n < 4 → IsTrue (n == 1)", False),
    ("(n : ℕ) × (5 < n) × (n < 7)", True),
    ("(n : ℕ) × (5 < n) × (n < 6)", False),
    ("(n : ℕ) × (n ≡ 2 ^ 31 - 1)", True),
    ("¬ ((n : ℕ) × (5 < n) × (n < 6))", True),
    ("(n : ℕ) → n < 9 → (k : ℕ) → k < n → k < 8", True),
    ("(n : ℕ) → n < 9 → (k : ℕ) × (k ≡ n)", True),
    ("(k : ℕ) × ((n : ℕ) → n < 3 → k ≡ n)", False),
    ("(n k : ℕ) → n < k → n < 5", None),
    ("(n : ℕ) → n < 2 → IsSomeAnd (slice_get (4 ∷ 5 ∷ []) n) (λ x. slice_get (0 ∷ 4 ∷ 5 ∷ []) (n + 1) ≡ Some x)", True),
    ("(n : ℕ) → n < 3 → slice_get (4 ∷ 5 ∷ 6 ∷ []) n ≡ slice_get (4 ∷ 5 ∷ 7 ∷ []) n", False),
    # by induction
    ("(n : ℕ) → n < 2 ^ 31 → stays n ≡ (if nat_lt 5 n then 7 else 6)", True),
    ("(n : ℕ) → n < 2 ^ 31 → stays n ≡ (if nat_lt 6 n then 7 else 6)", False),
    ("(n : ℕ) → n < 300 → double n ≡ n + n", True),
    ("(n : ℕ) → n < 300 → double n ≡ n + 2", False),
    ("(n : ℕ) → n < 50 → count n 0 ≡ n", True),
    ("(n : ℕ) → n < 50 → count n 1 ≡ n", False),
    # lists that an equation gives
    ("(xs : List ℕ) × ((n : ℕ) × (n < length xs) × (n ≡ 5)) × (xs ≡ 1 ∷ [])", False),
    ("(xs : List ℕ) × ((n : ℕ) × (n < length xs) × (n ≡ 0)) × (xs ≡ 1 ∷ [])", True),
    ("(rest : List ℕ) × (1 ∷ [] ++ rest ≡ 1 ∷ 2 ∷ [])", True),
    ("(rest : List ℕ) × (3 ∷ [] ++ rest ≡ 1 ∷ 2 ∷ [])", False),
    ("(rest : List ℕ) × (length rest ≡ 1) × (1 ∷ [] ++ rest ≡ 1 ∷ 2 ∷ [])", True),
    ("(rest : List ℕ) × (length rest ≡ 5) × (1 ∷ [] ++ rest ≡ 1 ∷ 2 ∷ [])", False),
    ("(rest : List ℕ) × (rest ≡ []) × (rest ≡ 1 ∷ [])", False),
    ("IsFront (1 ∷ 2 ∷ 3 ∷ []) (1 ∷ 2 ∷ []) 2", True),
    ("IsFront (1 ∷ 2 ∷ 3 ∷ []) (1 ∷ 2 ∷ []) 3", False),
    ("IsFront (1 ∷ 2 ∷ 3 ∷ []) (2 ∷ []) 1", False),
    ("¬ IsFront (1 ∷ 2 ∷ 3 ∷ []) (2 ∷ []) 1", True),
    # lists of which nothing is known
    ("(rest : List ℕ) → ¬ (3 ∷ [] ++ rest ≡ 1 ∷ 2 ∷ [])", True),
    ("(rest : List ℕ) → ¬ (1 ∷ [] ++ rest ≡ 1 ∷ 2 ∷ [])", None),
    ("(rest : List ℕ) → rest ≡ []", None),
    ("(rest : List ℕ) → ¬ (rest ≡ [])", None),
    ("(b : Bool) → IsTrue b", None),
    ("(xs : List ℕ) × (length xs ≡ 1)", None),
    ("¬ ((xs : List ℕ) × (length xs ≡ 1))", None),
    ("(xs : List ℕ) × (xs ≡ [] ⊎ xs ≡ 1 ∷ []) × (length xs ≡ 1)", None),
    ("¬ ((xs : List ℕ) × (xs ≡ [] ⊎ xs ≡ 1 ∷ []) × (length xs ≡ 1))", None),
    ("(xs : List ℕ) × ((n : ℕ) → n < 3 → xs ≡ n ∷ [])", None),
    ("(xs : List ℕ) × (xs ≡ [] → 1 ≡ 2)", None),
    ("(xs : List ℕ) × ¬ (xs ≡ [])", None),
    # conditions and alternatives
    ("PointsAreFew", None),
    ("¬ PointsAreFew", None),
    ("SomePoint", True),
    ("Wrong", False),
    ("1 ≡ 2 → 3 ≡ 4", True),
    ("1 ≡ 1 → 3 ≡ 4", False),
    ("1 ≡ 2 ⊎ 1 ≡ 1", True),
    ("1 ≡ 2 ⊎ 1 ≡ 3", False),
    ("(1 ≡ 1) × (1 ≡ 2) × (1 ≡ 1)", False),
    ("((b : Bool) → IsTrue b) → 1 ≡ 2", None),
    ("1 ≡ 1 ⊎ ((b : Bool) → IsTrue b)", True),
    ("IsSomeAnd (Some 3) (λ n. n < 3)", False),
]

# Texts that cannot be read, with the line of what is wrong and a part of what is said.
UNREADABLE = [
    ("a : ℕ\na = elim 1 [ zero ↦ 2 ]", 2, "a name is missing before elim"),
    ("a : ℕ\na = (1", 2, ") is missing"),
    ("a : ℕ\na = b", 2, "b has no meaning"),
    ("a : ℕ\na = 1\n\nb : ℕ → ℕ\nb = λ. 2 2 )", 5, ""),
    ("a : ℕ → ℕ\na x y = 1\na x = 2", 3, "different numbers of arguments"),
    ("a : ℕ\na =\n  if 1 then 2", 3, "else is missing"),
    ("a : Type 0\na = 1 ≡ 2 ≡ 3", 2, "without parentheses"),
    ("a : ℕ\na = pos.unknown", 2, ""),
    ("a : ℕ\na = pos.", 2, ". is not expected"),
    ("data Colour : Type 0 where\n  Red : Colour", 1, "a name is missing before data"),
    ("a : Type 0\na = 1 ≢ 2", 2, "≢ has no meaning"),
    ("use Rattle.std.specs.Prelude.{merge}\na : ℕ\na = merge", 3, "no meaning"),
    ("a : ℕ\na = f.g 1\n  where f = 1", 3, "where is not expected"),
    ("a : List ℕ → ℕ\na (1 ∷ x) = 2", 2, "no pattern"),
    ("use Rattle.small.specs.Gone.{b}\na : ℕ\na = b", 3, "b has no meaning"),
    ("use Rattle.small.specs.{b}\na : ℕ\na = b", 3, "b has no meaning"),
    ("use Rattle.small.specs.Gone as gone\na : ℕ\na = gone.b", 3, "b has no meaning"),
    ("use Rattle.small.specs.Gone.{B}\na : ℕ → ℕ\na B = 1", 3, "B has no meaning"),
    ("5 = 3", 1, "no name of a function"),
    ("1 x = 3", 1, "no name of a function"),
    ("record A : Type 0", 1, "where is missing"),
    ("record A : Type 0 where\n  pub", 2, "a name is missing"),
    ("use Rattle.small\n  specs.{b\na : ℕ\na = 1", 1, "no import"),
]


def crate(folder: str, text: str) -> Definitions:
    specs = pathlib.Path(folder, "small", "specs")
    specs.mkdir(parents=True, exist_ok=True)
    (specs / "Text.antt").write_text(text)
    return Definitions(pathlib.Path(folder))


def shown(text: str) -> bool | None:
    """Whether a claim is shown."""
    with tempfile.TemporaryDirectory() as folder:
        definitions = crate(folder, f"{PRELUDE}{DEFINITIONS}\nClaim : ℕ → Type 0\nClaim _ = {text}\n")
        try:
            found: bool | None = definitions.named("small.Text.Claim").run(0)
            return found
        except NotYet:
            return None


def said(text: str) -> str:
    """Why a text cannot be read."""
    with tempfile.TemporaryDirectory() as folder:
        try:
            return f"it is {crate(folder, text).named('small.Text.a')}"
        except (Unreadable, Stuck) as error:
            return str(error)


def damaged(chance: Random) -> str:
    """What is wrong with the answer to a module of which a word is left out, doubled, or taken from another place."""
    file = chance.choice(sorted((TOP / "crates").glob("*/specs/**/*.antt")))
    words = re.split(r"(\s+)", file.read_text(encoding="utf-8"))
    at = chance.randrange(len(words))
    words[at : at + 1] = chance.choice([[], [words[at]] * 2, [chance.choice(words)]])
    with tempfile.TemporaryDirectory() as folder:
        path = pathlib.Path(folder, "Text.antt")
        path.write_text("".join(words), encoding="utf-8")
        try:
            read(path, "Text.antt")
        except Unreadable as error:
            return "" if re.match(r"Text\.antt:\d+: ", str(error)) else f"{file}: {error}"
        except Exception as error:
            return f"{file}: {type(error).__name__}: {error}"
    return ""


class Language(unittest.TestCase):
    def test_claims(self) -> None:
        for text, wanted in CLAIMS:
            with self.subTest(text):
                self.assertIs(deeply(partial(shown, text)), wanted)

    def test_unreadable(self) -> None:
        for text, line, part in UNREADABLE:
            with self.subTest(text):
                why = deeply(partial(said, text))
                self.assertTrue(why.startswith(f"small/specs/Text.antt:{line}: "), why)
                self.assertIn(part, why)

    def test_damaged(self) -> None:
        for number in range(DAMAGED):
            self.assertEqual(deeply(partial(damaged, Random(number))), "")


if __name__ == "__main__":
    unittest.main()
