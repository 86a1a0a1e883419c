//! The digits of numbers, eight at a time.

/// A number below these has seven digits at most, or eight.
const SEVEN_DIGITS: u64 = 10_000_000;
const EIGHT_DIGITS: u64 = 100_000_000;
/// Eight zeros.
const ZEROS: u64 = 0x3030_3030_3030_3030;

/// Puts a number behind some bytes, and a comma behind it.
#[inline(never)]
pub fn put_number_and_comma(to: &mut Vec<u8>, number: u64) {
    if number >= SEVEN_DIGITS {
        return put_long_number_and_comma(to, number);
    }
    let digits = eight_of(number);
    let zeros = (digits.trailing_zeros() / 8).min(7);
    let length = 8 - zeros;
    let text = (digits | ZEROS).wrapping_shr(8 * zeros) | u64::from(b',').wrapping_shl(8 * length);
    let end = to.len() + length as usize + 1;
    to.extend_from_slice(&text.to_le_bytes());
    to.truncate(end);
}

#[inline(never)]
fn put_long_number_and_comma(to: &mut Vec<u8>, number: u64) {
    let (before, last) = (number / EIGHT_DIGITS, number % EIGHT_DIGITS);
    if before > 0 {
        put_number_and_comma(to, before);
        to.pop();
    }
    to.extend_from_slice(&(eight_of(last) | ZEROS).to_le_bytes());
    to.push(b',');
}

/// The eight digits of a number that has no more, a byte each, the first one in the lowest byte. The number is
/// halved, its halves are halved side by side, and these give the digits; a multiplication and a shift divide.
fn eight_of(number: u64) -> u64 {
    let fours = (number / 10_000) | ((number % 10_000) << 32);
    let hundreds = (fours.wrapping_mul(10_486) >> 20) & 0x0000_007F_0000_007F;
    let twos = hundreds | (fours.wrapping_sub(hundreds.wrapping_mul(100)) << 16);
    let tens = (twos.wrapping_mul(103) >> 10) & 0x000F_000F_000F_000F;
    tens | (twos.wrapping_sub(tens.wrapping_mul(10)) << 8)
}

#[cfg(test)]
mod tests {
    use super::{eight_of, put_number_and_comma};

    #[test]
    fn numbers_of_each_length() {
        let mut number = 0_u64;
        for digit in (1..=9).cycle().take(40) {
            for one in [number, number.wrapping_sub(1), number.wrapping_neg()] {
                let mut bytes = b"before ".to_vec();
                put_number_and_comma(&mut bytes, one);
                assert_eq!(String::from_utf8_lossy(&bytes), format!("before {one},"));
            }
            number = number.wrapping_mul(10).wrapping_add(digit);
        }
    }

    #[test]
    fn each_four_digits() {
        for number in 0..10_000 {
            let wanted = format!("{number:04}{:04}", 9_999 - number);
            let found = eight_of(number * 10_000 + 9_999 - number).to_le_bytes().map(|digit| b'0' + digit);
            assert_eq!(String::from_utf8_lossy(&found), wanted);
        }
    }
}
