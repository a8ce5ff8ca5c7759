//! Numbers as words and lists have them: decimal digits, or hex digits after 0x.

pub fn number(word: &str) -> Result<u64, String> {
    let hex = word
        .strip_prefix("0x")
        .or_else(|| word.strip_prefix("0X"))
        .filter(|digits| !digits.starts_with('+'));
    let number = match hex {
        Some(digits) => u64::from_str_radix(digits, 16),
        None => word.parse(),
    };
    number.map_err(|_| "this is no number, as 130 or 0x82 is, that 64 bits hold".to_string())
}

/// A number of at least one.
pub fn count(word: &str) -> Result<u64, String> {
    match number(word)? {
        0 => Err("at least 1 is to be asked for".to_string()),
        count => Ok(count),
    }
}

#[cfg(test)]
mod tests {
    use super::*;

    #[test]
    fn decimal_and_hex_digits_are_read() {
        let read = [
            ("12", 12),
            ("0012", 12),
            ("0x12", 18),
            ("0X1f", 31),
            ("0xFFFFFFFFFFFFFFFF", u64::MAX),
        ];
        for (word, is) in read {
            assert_eq!(number(word), Ok(is), "{word}");
        }
        for word in ["", "0x", "x1", "0x+1", "-1", "1f", "0x10000000000000000"] {
            assert!(number(word).is_err(), "{word}");
        }
        assert_eq!((count("0x1"), count("0x0").is_err()), (Ok(1), true));
    }
}
