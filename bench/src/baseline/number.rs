//! Whole numbers as text, eight digits at a time.

use super::pieces::append;

/// Where a number ends that is none. It comes with a number that means nothing.
pub const NONE: (i64, usize) = (0, 0);

/// Reads a whole number of at most 15 digits that begins at `at`; answers it and where its digits
/// end, or `NONE`. Two words come back in registers, which an `Option` around them would not.
#[inline(always)]
pub fn read(text: &[u8], at: usize) -> (i64, usize) {
    let Some(&first) = text.get(at) else {
        return NONE;
    };
    let digit = first.wrapping_sub(b'0');
    if digit <= 9 {
        // Most fields are one digit, and nothing may follow a leading zero.
        return match text.get(at + 1) {
            Some(next) if next.is_ascii_digit() && digit != 0 => digits(text, at),
            _ => (digit as i64, at + 1),
        };
    }
    if first != b'-' || !matches!(text.get(at + 1), Some(b'1'..=b'9')) {
        return NONE;
    }
    let (size, end) = digits(text, at + 1);
    (-size, end)
}

/// The number in the last `length` of eight bytes, sign among them, where it is that short. Its length
/// is known, so nothing waits for the number before it, and no sign costs a branch.
#[inline(always)]
pub fn read_short(bytes: [u8; 8], length: usize) -> Option<i64> {
    let word = u64::from_le_bytes(bytes);
    let minus = (word >> (64 - 8 * length as u32)) as u8 == b'-';
    let count = length - minus as usize;
    // Zeros in front of the digits; a minus alone is no number.
    let skip = 64u32.wrapping_sub(8 * count as u32) & 63;
    let low = ((word ^ 0x3030_3030_3030_3030) >> skip) << skip;
    let others = (low.wrapping_add(0x7676_7676_7676_7676) | low) & 0x8080_8080_8080_8080;
    let zero = (low >> skip) as u8 == 0;
    if others != 0 || count == 0 || (zero && length > 1) {
        return None;
    }
    let sign = -(minus as i64);
    Some((valued(low) as i64 ^ sign) - sign)
}

/// The number that fills the bytes from `start` to `end`, of any length.
#[inline(never)]
pub fn read_long(text: &[u8], start: usize, end: usize) -> Option<i64> {
    let (number, stop) = read(text, start);
    (stop == end && end > start).then_some(number)
}

/// A bit for each of 64 bytes that lies below the minus, as comma and line feed do.
#[inline(always)]
pub fn ends(block: &[u8]) -> u64 {
    const TOP: u64 = 0x8080_8080_8080_8080;
    let mut mask = 0;
    for (k, bytes) in block.chunks_exact(8).take(8).enumerate() {
        let word = u64::from_le_bytes([
            bytes[0], bytes[1], bytes[2], bytes[3], bytes[4], bytes[5], bytes[6], bytes[7],
        ]);
        let below = !((word | TOP) - 0x2d2d_2d2d_2d2d_2d2d) & !word & TOP;
        let bits = (below >> 7).wrapping_mul(0x0102_0408_1020_4080) >> 56;
        mask |= bits << (8 * k);
    }
    mask
}

/// The digits from `at`, of which the first is there and not zero.
#[inline(never)]
fn digits(text: &[u8], at: usize) -> (i64, usize) {
    let Some(word) = eight_bytes(text, at) else {
        return slowly(text, at, 0);
    };
    let (low, count) = leading(word);
    if count < 8 {
        return (low as i64, at + count);
    }
    match eight_bytes(text, at + 8) {
        Some(word) => {
            let (more, count) = leading(word);
            match count {
                8 => NONE,
                _ => ((low * TENS[count] + more) as i64, at + 8 + count),
            }
        }
        None => slowly(text, at + 8, low),
    }
}

const TENS: [u64; 8] = [1, 10, 100, 1_000, 10_000, 100_000, 1_000_000, 10_000_000];

#[inline(always)]
fn eight_bytes(text: &[u8], at: usize) -> Option<u64> {
    let bytes = text.get(at..at + 8)?;
    Some(u64::from_le_bytes(bytes.try_into().ok()?))
}

/// The number that the leading digits among eight bytes make, and how many they are.
#[inline(always)]
fn leading(word: u64) -> (u64, usize) {
    let low = word ^ 0x3030_3030_3030_3030;
    // The lowest byte that is no digit gets its top bit; a carry only reaches bytes behind it.
    let others = (low.wrapping_add(0x7676_7676_7676_7676) | low) & 0x8080_8080_8080_8080;
    let count = (others.trailing_zeros() / 8) as usize;
    // The digits move up, so that zeros stand in front of them; none leaves nothing.
    let x = low.checked_shl(64 - 8 * count as u32).unwrap_or(0);
    (valued(x), count)
}

/// Eight digits, the first in the lowest byte, as a number.
#[inline(always)]
fn valued(x: u64) -> u64 {
    let x = (x.wrapping_mul(10).wrapping_add(x >> 8)) & 0x00ff_00ff_00ff_00ff;
    let x = (x.wrapping_mul(100).wrapping_add(x >> 16)) & 0x0000_ffff_0000_ffff;
    (x.wrapping_mul(10_000).wrapping_add(x >> 32)) & 0xffff_ffff
}

/// Near the end of a text, byte by byte.
#[inline(never)]
fn slowly(text: &[u8], mut at: usize, so_far: u64) -> (i64, usize) {
    let mut number = so_far;
    while let Some(byte) = text.get(at) {
        let digit = byte.wrapping_sub(b'0');
        if digit > 9 {
            break;
        }
        if number >= 100_000_000_000_000 {
            return NONE;
        }
        number = number * 10 + digit as u64;
        at += 1;
    }
    (number as i64, at)
}

/// Appends a number.
#[inline]
pub fn write(out: &mut Vec<u8>, number: i64) {
    // The sign comes and goes without a branch.
    append(out, b"-", (number < 0) as usize);
    let size = number.unsigned_abs();
    if size < 1000 {
        let small = &SMALL[size as usize];
        append(out, small, small[3] as usize);
    } else if size < 100_000_000 {
        front(out, size as u32);
    } else {
        let high = size / 100_000_000;
        if high < 100_000_000 {
            front(out, high as u32);
        } else {
            front(out, (high / 100_000_000) as u32);
            out.extend_from_slice(&ascii((high % 100_000_000) as u32).to_le_bytes());
        }
        out.extend_from_slice(&ascii((size % 100_000_000) as u32).to_le_bytes());
    }
}

/// The digits of each number below 1000, and how many they are.
pub static SMALL: [[u8; 4]; 1000] = {
    let mut all = [[0; 4]; 1000];
    let mut number = 0;
    while number < 1000 {
        let (h, t, u) = (number / 100, number / 10 % 10, number % 10);
        let (h, t, u) = (b'0' + h as u8, b'0' + t as u8, b'0' + u as u8);
        all[number] = match number {
            0..10 => [u, 0, 0, 1],
            10..100 => [t, u, 0, 2],
            _ => [h, t, u, 3],
        };
        number += 1;
    }
    all
};

/// Appends a number from 0 to 99,999,999 without zeros in front.
#[inline(always)]
fn front(out: &mut Vec<u8>, number: u32) {
    let digits = ascii(number);
    let zeros = ((digits ^ 0x3030_3030_3030_3030).trailing_zeros() / 8).min(7);
    out.extend_from_slice(&(digits >> (8 * zeros)).to_le_bytes());
    out.truncate(out.len() - zeros as usize);
}

/// Eight digits, the first in the lowest byte.
#[inline(always)]
fn ascii(number: u32) -> u64 {
    let x = (number / 10_000) as u64 | ((number % 10_000) as u64) << 32;
    let hundreds = ((x * 10_486) >> 20) & 0x7f_0000_007f;
    let x = hundreds | (x - 100 * hundreds) << 16;
    let tens = ((x * 103) >> 10) & 0x000f_000f_000f_000f;
    let x = tens | (x - 10 * tens) << 8;
    x | 0x3030_3030_3030_3030
}

#[cfg(test)]
mod tests {
    use super::*;

    fn short(text: &[u8]) -> Option<i64> {
        let mut bytes = *b"9-,\n7-9,";
        bytes[8 - text.len()..].copy_from_slice(text);
        read_short(bytes, text.len())
    }

    #[test]
    fn numbers_come_back() {
        let mut sizes = vec![0i64, 7, 10, 99, 100, 9_999, 10_000, 99_999_999, 100_000_000];
        sizes.extend([
            9_000_000_000_000,
            123_456_789_012,
            1_000_000_000_000_000_000,
        ]);
        sizes.extend((0..19).map(|k| 10i64.pow(k)));
        sizes.extend((0..19).map(|k| 10i64.pow(k) - 1));
        for size in sizes {
            for number in [size, -size] {
                let mut out = Vec::new();
                write(&mut out, number);
                assert_eq!(out, number.to_string().into_bytes());
                if size < 1_000_000_000_000_000 {
                    assert_eq!(read(&out, 0), (number, out.len()));
                    assert_eq!(read_long(&out, 0, out.len()), Some(number));
                    if out.len() <= 8 {
                        assert_eq!(short(&out), Some(number));
                    }
                    let end = out.len();
                    out.extend_from_slice(b",12345678,,,");
                    assert_eq!(read(&out, 0), (number, end));
                    assert_eq!(read_long(&out, 0, end), Some(number));
                }
            }
        }
    }

    #[test]
    fn what_is_no_number() {
        for text in [
            "",
            "-",
            "-0",
            "+1",
            "x",
            ",",
            "-x",
            "1234567890123456",
            "-00",
        ] {
            assert_eq!(read(text.as_bytes(), 0).1, 0, "{text}");
            let longer = format!("12345678{text},12345678");
            let end = 8 + text.len();
            assert_eq!(read_long(longer.as_bytes(), 8, end), None, "{text}");
            if (1..=8).contains(&text.len()) {
                assert_eq!(short(text.as_bytes()), None, "{text}");
            }
        }
        assert_eq!(read(b"07", 0), (0, 1));
    }

    #[test]
    fn ends_are_found() {
        let mut block = [b'5'; 64];
        for byte in 0..=255 {
            for at in [0, 7, 8, 33, 63] {
                block[at] = byte;
                assert_eq!(ends(&block), ((byte < b'-') as u64) << at);
                block[at] = b'5';
            }
        }
        block[3..7].copy_from_slice(b",-,\n");
        assert_eq!(ends(&block), 0b110_1000);
    }
}
