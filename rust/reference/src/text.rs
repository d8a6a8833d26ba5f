//! Decimal numbers and sets as text: each has one written form.

/// Reads a decimal number without leading zeros that fits 64 bits.
pub fn read_decimal(text: &[u8]) -> Option<u64> {
    if text.is_empty() || (text[0] == b'0' && text.len() > 1) {
        return None;
    }
    text.iter().try_fold(0u64, |value, &byte| {
        let digit = byte.is_ascii_digit().then(|| u64::from(byte - b'0'))?;
        value.checked_mul(10)?.checked_add(digit)
    })
}

/// Reads a decimal number from 0 to 255.
pub fn read_small(text: &[u8]) -> Option<u8> {
    read_decimal(text).and_then(|value| u8::try_from(value).ok())
}

/// Reads a decimal number from 0 to 65535.
pub fn read_medium(text: &[u8]) -> Option<u16> {
    read_decimal(text).and_then(|value| u16::try_from(value).ok())
}

/// Reads exactly `digits` lower-case hexadecimal digits.
pub fn read_hex(text: &[u8], digits: usize) -> Option<u32> {
    if text.len() != digits {
        return None;
    }
    text.iter().try_fold(0u32, |value, &byte| {
        let digit = match byte {
            b'0'..=b'9' => byte - b'0',
            b'a'..=b'f' => byte - b'a' + 10,
            _ => return None,
        };
        Some(value << 4 | u32::from(digit))
    })
}

pub fn write_decimal(out: &mut Vec<u8>, mut value: u64) {
    let mut digits = [0u8; 20];
    let mut start = digits.len();
    loop {
        start -= 1;
        digits[start] = b'0' + (value % 10) as u8;
        value /= 10;
        if value == 0 {
            break;
        }
    }
    out.extend_from_slice(&digits[start..]);
}

/// Writes the low `digits` hexadecimal digits, lower-case.
pub fn write_hex(out: &mut Vec<u8>, value: u32, digits: u32) {
    for place in (0..digits).rev() {
        out.push(b"0123456789abcdef"[(value >> (4 * place) & 15) as usize]);
    }
}

#[cfg(test)]
mod tests {
    use super::*;

    #[test]
    fn a_number_has_one_written_form() {
        for value in [0, 1, 9, 10, 255, 256, 65_535, u64::MAX - 1, u64::MAX] {
            let mut text = Vec::new();
            write_decimal(&mut text, value);
            assert_eq!(text, value.to_string().into_bytes());
            assert_eq!(read_decimal(&text), Some(value));
        }
        let strays = ["", "00", "01", "+1", "-1", " 1", "1 ", "1\r", "a", "18446744073709551616", "99999999999999999999"];
        for text in strays {
            assert_eq!(read_decimal(text.as_bytes()), None, "{text:?}");
        }
        assert_eq!(read_small(b"255"), Some(255));
        assert_eq!(read_small(b"256"), None);
        assert_eq!(read_medium(b"65535"), Some(65_535));
        assert_eq!(read_medium(b"65536"), None);
    }

    #[test]
    fn a_set_is_written_in_lower_case_and_in_full() {
        assert_eq!(read_hex(b"00fa", 4), Some(0xfa));
        for text in ["", "fa", "00FA", "00fa0", "00g0", "0x0f"] {
            assert_eq!(read_hex(text.as_bytes(), 4), None, "{text:?}");
        }
        let mut text = Vec::new();
        write_hex(&mut text, 0x00ff_0102, 8);
        assert_eq!(text, b"00ff0102");
    }
}
