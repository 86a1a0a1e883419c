use super::{nanos_of, words_of, Asked, Asks, Captures, Words};
use why::Reason;

fn asked(words: &[&str]) -> Result<Box<Asked>, String> {
    match words_of(words.iter().map(|word| word.into()).collect()) {
        Ok(Words::Why(asked)) => Ok(asked),
        Ok(_) => Err("help or version".to_string()),
        Err(failure) => Err(failure.message().to_string()),
    }
}

fn refused(words: &[&str]) -> String {
    asked(words).err().unwrap_or_default()
}

#[test]
fn times() {
    let cases = [
        ("100ms", Some(100_000_000)),
        ("1.5s", Some(1_500_000_000)),
        ("250us", Some(250_000)),
        ("250µs", Some(250_000)),
        ("7ns", Some(7)),
        ("0.9ns", Some(0)),
        ("999999999.999999999s", Some(999_999_999_999_999_999)),
        ("1", None),
        ("s", None),
        ("1.s", None),
        (".5s", None),
        ("-1s", None),
        ("1e3ms", None),
        ("1000000000s", None),
        ("1 s", None),
    ];
    for (word, nanos) in cases {
        assert_eq!(nanos_of(word), nanos, "{word}");
    }
}

#[test]
fn what_goes_together() -> Result<(), String> {
    let found = asked(&["a", "--fail-on", "fault,hung", "--fail-on=gap", "-k", "keys", "b", "--rows", "-"]);
    assert_eq!(found.err().as_deref(), Some("--rows has no reasons to fail, and no JUnit file"));
    let found = asked(&["a", "--fail-on", "fault,hung", "--fail-on=gap", "-kkeys", "b", "--json", "--json"])?;
    assert_eq!(found.gates.reasons, [Reason::Fault, Reason::Hung, Reason::Gap]);
    assert_eq!((&found.form, found.has_gates), (&Asks::Document, true));
    assert_eq!(found.captures, Captures::One(vec!["a".into(), "b".into()]));
    assert_eq!(asked(&["a", "--fail-life", "2s"])?.gates.life, Some(2_000_000_000));
    let found = asked(&["--ends", "a", "-", "--rows"]);
    assert_eq!(found.err().as_deref(), Some("argument --rows: expected one argument"));
    assert_eq!(asked(&["--ends", "a", "-"])?.captures, Captures::Ends(["a".into(), "-".into()]));
    assert!(!asked(&["--ends", "a", "b"])?.has_gates);
    let found = asked(&["--rows", "rows", "--report", "-", "a"])?;
    assert_eq!((&found.form, found.report.clone()), (&Asks::Rows("rows".into()), Some("-".into())));
    assert_eq!(asked(&["--rows", "-", "--audit", "report", "a"])?.audit, Some("report".into()));
    Ok(())
}

#[test]
fn what_does_not() {
    assert_eq!(refused(&["--json", "--rows", "a"]), "argument --rows: not allowed with argument --json");
    assert_eq!(refused(&["--compare", "a", "b", "c"]), "--compare takes two captures, and no other");
    assert_eq!(refused(&["--compare", "a", "b", "--ends", "c", "d"]), "--compare takes two captures, and no other");
    assert_eq!(refused(&["--ends", "a", "b", "--json-lines"]), "--ends has no lines of JSON: --json");
    assert_eq!(refused(&["--ends", "a", "b", "--rows", "c"]), "--ends has no rows: --json");
    assert_eq!(refused(&["--ends", "a", "--json"]), "argument --ends: expected 2 arguments");
    assert_eq!(refused(&["--ends", "a"]), "argument --ends: expected 2 arguments");
    assert_eq!(refused(&["--width", "39"]), "argument --width: '39' is no number from 40 to 1000");
    assert!(refused(&["--color", "x"]).ends_with("(choose from 'auto', 'always', 'never')"));
    assert!(refused(&["--fail-on", "fault,x"]).starts_with("argument --fail-on: 'x' is no reason: fault, "));
    assert!(refused(&["--fail-stall", "5"]).contains("'5' is no time, as 100ms"));
    assert!(refused(&["--fail-life", "5"]).starts_with("argument --fail-life: '5' is no time"));
    assert!(refused(&["--no-requests", "--fail-on", "hung,status"]).starts_with("--fail-on status reads the fields"));
    assert_eq!(refused(&["--report", "a"]), "--report goes with --rows");
    assert_eq!(refused(&["--json", "--audit", "a"]), "--audit goes with --rows");
    assert_eq!(refused(&["--trace", "t", "--rows", "r", "a"]), "--trace is of one answer: not with --rows");
    assert_eq!(refused(&["--trace", "t", "--ends", "a", "b"]), "--trace is of one answer: not with --ends");
    assert_eq!(refused(&["--trace", "-", "a"]), "--trace - goes with --quiet");
    assert_eq!(refused(&["--rows", "-", "--report", "-"]), "--rows and --report are the same file");
    let by_name = "--compare matches requests by their names: not with --no-requests";
    assert_eq!(refused(&["--compare", "a", "b", "--no-requests"]), by_name);
    assert_eq!(refused(&["--legs", "--no-legs"]), "argument --no-legs: not allowed with argument --legs");
    assert_eq!(refused(&["--legs", "--ends", "a", "b"]), "--ends has no legs of a proxy: not with --legs");
    let by_legs = "--fail-on behind is about both legs: not with --no-legs";
    assert_eq!(refused(&["--fail-on", "behind", "--no-legs"]), by_legs);
    assert_eq!(refused(&["--nothing"]), "unrecognized arguments: --nothing");
}
