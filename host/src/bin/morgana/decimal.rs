//! Decimal numbers, as arguments and point files have them.

use std::str::FromStr;

/// The number that decimal digits write, if its type has it.
pub fn decimal<N: FromStr>(text: &str) -> Option<N> {
    let digits = text.bytes().all(|byte| byte.is_ascii_digit());
    text.parse().ok().filter(|_| digits)
}

#[cfg(test)]
mod tests {
    use super::decimal;

    #[test]
    fn digits_are_a_number() {
        assert_eq!(decimal("0"), Some(0));
        assert_eq!(decimal("007"), Some(7));
        assert_eq!(decimal("2147483647"), Some(2_147_483_647));
        assert_eq!(decimal("4294967295"), Some(u32::MAX));
        assert_eq!(decimal("18446744073709551615"), Some(u64::MAX));
    }

    #[test]
    fn anything_else_is_none() {
        for text in ["", "+1", "-1", "4294967296", "1 ", "0x1", "1.0", "1e3", "٣"] {
            assert_eq!(decimal::<u32>(text), None, "{text:?}");
        }
        for text in ["", "+1", "18446744073709551616"] {
            assert_eq!(decimal::<u64>(text), None, "{text:?}");
        }
    }
}
