//! Numbers as bytes: groups of seven bits, low first, top bit set on all but
//! the last. Only the shortest form is read (01, "The sheet").

/// Bytes that are no number: cut short, overlong, or above 64 bits.
#[derive(Clone, Copy, PartialEq, Eq, Debug)]
pub struct Malformed;

/// The most groups that 64 bits need.
const LONGEST: usize = 10;

/// Reads one unsigned number; gives it with the count of bytes it took.
pub fn read_unsigned(bytes: &[u8]) -> Result<(u64, usize), Malformed> {
    let mut value: u64 = 0;
    for (place, &byte) in bytes.iter().take(LONGEST).enumerate() {
        let group = u64::from(byte & 0x7f);
        // The tenth group holds the one bit that nine groups leave over.
        if place == LONGEST - 1 && group > 1 {
            return Err(Malformed);
        }
        value |= group << (7 * place);
        if byte & 0x80 == 0 {
            let overlong = place > 0 && group == 0;
            return if overlong { Err(Malformed) } else { Ok((value, place + 1)) };
        }
    }
    Err(Malformed)
}

/// Reads one signed number.
pub fn read_signed(bytes: &[u8]) -> Result<(i64, usize), Malformed> {
    let (code, length) = read_unsigned(bytes)?;
    Ok((signed_from_code(code), length))
}

/// Appends the shortest form of an unsigned number.
pub fn write_unsigned(mut value: u64, out: &mut Vec<u8>) {
    while value >= 0x80 {
        out.push((value & 0x7f) as u8 | 0x80);
        value >>= 7;
    }
    out.push(value as u8);
}

/// Appends the shortest form of a signed number.
pub fn write_signed(value: i64, out: &mut Vec<u8>) {
    write_unsigned(code_from_signed(value), out);
}

/// n becomes 2n, or -2n-1 when negative. Every i64 has a 64-bit code.
pub fn code_from_signed(n: i64) -> u64 {
    let n = i128::from(n);
    let code = if n < 0 { -2 * n - 1 } else { 2 * n };
    u64::try_from(code).expect("the code of an i64 has 64 bits")
}

/// The number that a code stands for.
pub fn signed_from_code(code: u64) -> i64 {
    let half = (code / 2) as i64;
    if code.is_multiple_of(2) {
        half
    } else {
        -half - 1
    }
}

#[cfg(test)]
mod tests {
    use super::*;

    fn unsigned(value: u64) -> Vec<u8> {
        let mut out = Vec::new();
        write_unsigned(value, &mut out);
        out
    }

    fn signed(value: i64) -> Vec<u8> {
        let mut out = Vec::new();
        write_signed(value, &mut out);
        out
    }

    #[test]
    fn known_forms() {
        assert_eq!(unsigned(300), [0xac, 0x02]);
        assert_eq!(read_unsigned(&[0xac, 0x02]), Ok((300, 2)));
        assert_eq!(signed(0), [0x00]);
        assert_eq!(signed(-1), [0x01]);
        assert_eq!(signed(1), [0x02]);
    }

    #[test]
    fn largest_number() {
        let mut bytes = vec![0xff; 9];
        bytes.push(0x01);
        assert_eq!(unsigned(u64::MAX), bytes);
        assert_eq!(read_unsigned(&bytes), Ok((u64::MAX, 10)));
        assert_eq!(read_signed(&bytes), Ok((i64::MIN, 10)));
        assert_eq!(signed(i64::MIN), bytes);
    }

    #[test]
    fn above_64_bits() {
        let mut bytes = vec![0xff; 9];
        bytes.push(0x02);
        assert_eq!(read_unsigned(&bytes), Err(Malformed));
        assert_eq!(
            read_unsigned(&[0x80, 0x80, 0x80, 0x80, 0x80, 0x80, 0x80, 0x80, 0x80, 0x80, 0x01]),
            Err(Malformed)
        );
    }

    #[test]
    fn overlong_and_cut_short() {
        assert_eq!(read_unsigned(&[0x80, 0x00]), Err(Malformed));
        assert_eq!(read_unsigned(&[0xff, 0x80, 0x00]), Err(Malformed));
        assert_eq!(read_unsigned(&[0x80]), Err(Malformed));
        assert_eq!(read_unsigned(&[]), Err(Malformed));
    }

    #[test]
    fn reading_undoes_writing() {
        for bit in 0..64 {
            for value in [1u64 << bit, (1u64 << bit) - 1, u64::MAX >> bit] {
                let bytes = unsigned(value);
                assert_eq!(read_unsigned(&bytes), Ok((value, bytes.len())));
                assert_eq!(code_from_signed(signed_from_code(value)), value);
            }
        }
    }
}
