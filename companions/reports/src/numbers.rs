//! Numbers as sentences have them.

/// So many bytes most counts take.
const USUAL: usize = 32;

/// A number with a comma before each three digits.
pub fn grouped(number: impl Into<i128>) -> String {
    let mut text = String::with_capacity(USUAL);
    put_grouped(&mut text, number);
    text
}

/// Puts such a number behind a text.
pub fn put_grouped(text: &mut String, number: impl Into<i128>) {
    let number = number.into();
    if number < 0 {
        text.push('-');
    }
    put_groups(text, number.unsigned_abs());
}

fn put_groups(text: &mut String, number: u128) {
    let (before, last) = match u64::try_from(number) {
        Ok(number @ 0..=999) => return put_number(text, number),
        Ok(number) => (u128::from(number / 1_000), number % 1_000),
        Err(_) => (number / 1_000, (number % 1_000) as u64),
    };
    put_groups(text, before);
    text.push(',');
    for place in [100, 10, 1] {
        put_number(text, last / place % 10);
    }
}

/// Puts a number behind a text, digit by digit: most have few.
pub fn put_number(text: &mut String, number: u64) {
    if number >= 10 {
        put_number(text, number / 10);
    }
    text.push(char::from(b'0' + (number % 10) as u8));
}

/// So many of something, as "1 packet" and "2 packets".
pub fn count(number: impl Into<i128>, one: &str) -> String {
    let mut text = String::with_capacity(USUAL);
    put_count(&mut text, number, one);
    text
}

/// Puts so many of something behind a text.
pub fn put_count(text: &mut String, number: impl Into<i128>, one: &str) {
    let number = number.into();
    put_grouped(text, number);
    text.push(' ');
    text.push_str(one);
    if number != 1 {
        text.push('s');
    }
}

/// A time in a unit that fits, exactly.
pub fn duration(nanos: i128) -> String {
    let size = nanos.unsigned_abs();
    let sign = if nanos < 0 { "-" } else { "" };
    for (unit, length, digits) in [("s", 1_000_000_000, 9), ("ms", 1_000_000, 6), ("µs", 1_000, 3)] {
        if size >= length {
            let whole = grouped(i128::try_from(size / length).unwrap_or(i128::MAX));
            let rest = format!("{:0digits$}", size % length);
            let rest = rest.trim_end_matches('0');
            let point = if rest.is_empty() { "" } else { "." };
            return format!("{sign}{whole}{point}{rest} {unit}");
        }
    }
    format!("{nanos} ns")
}

#[cfg(test)]
mod tests {
    use super::{count, duration, grouped};

    #[test]
    fn one_and_many() {
        assert_eq!([0, 1, 1200].map(|number: u64| count(number, "byte")), ["0 bytes", "1 byte", "1,200 bytes"]);
    }

    #[test]
    fn times_have_a_unit_that_fits() {
        let cases: [(i128, &str); 8] = [
            (0, "0 ns"),
            (999, "999 ns"),
            (764_000, "764 µs"),
            (804_434_000, "804.434 ms"),
            (-1_500, "-1.5 µs"),
            (1_000_000_000, "1 s"),
            (1_234_000_000_007, "1,234.000000007 s"),
            (-5, "-5 ns"),
        ];
        for (nanos, said) in cases {
            assert_eq!(duration(nanos), said);
        }
    }

    #[test]
    fn digits_are_grouped() {
        let cases =
            [(0_i64, "0"), (999, "999"), (1000, "1,000"), (-100_000, "-100,000"), (2_147_547_182, "2,147,547,182")];
        for (number, text) in cases {
            assert_eq!(grouped(number), text);
        }
        assert_eq!(grouped(i128::from(u64::MAX) * 1_000 + 7), "18,446,744,073,709,551,615,007");
    }
}
