//! Numbers as people read them.

/// With a comma before each three digits.
pub fn grouped(number: u64) -> String {
    let digits = number.to_string();
    let mut told = String::new();
    for (at, digit) in digits.chars().enumerate() {
        if at > 0 && (digits.len() - at) % 3 == 0 {
            told.push(',');
        }
        told.push(digit);
    }
    told
}

/// So many of something.
pub fn counted(count: u64, one: &str, several: &str) -> String {
    let word = if count == 1 { one } else { several };
    format!("{} {word}", grouped(count))
}

/// Bytes in the largest unit of which there is at least one.
pub fn size(bytes: u64) -> String {
    let units = ["KiB", "MiB", "GiB", "TiB", "PiB", "EiB"];
    let unit = (0..units.len())
        .rev()
        .find(|unit| bytes >> (10 * (unit + 1)) > 0);
    match unit {
        None => counted(bytes, "byte", "bytes"),
        Some(unit) => {
            let one = 1 << (10 * (unit + 1));
            let (whole, tenths) = (bytes / one, bytes % one / (one / 10).max(1));
            match bytes % one {
                0 => format!("{} {}", grouped(whole), units[unit]),
                _ => format!("{}.{} {}", grouped(whole), tenths.min(9), units[unit]),
            }
        }
    }
}

/// From the first to the last of some that are counted from `first` on.
pub fn range(first: u64, count: u64) -> String {
    match count {
        1 => grouped(first),
        _ => format!("{} to {}", grouped(first), grouped(first + count - 1)),
    }
}

#[cfg(test)]
mod tests {
    use super::*;

    #[test]
    fn numbers_are_read_easily() {
        let told = [0, 999, 1000, 1_234_567].map(grouped);
        assert_eq!(told, ["0", "999", "1,000", "1,234,567"]);
        let told = [1, 512, 1024, 196_608, 1_100_000, 1 << 40].map(size);
        let wanted = [
            "1 byte",
            "512 bytes",
            "1 KiB",
            "192 KiB",
            "1.0 MiB",
            "1 TiB",
        ];
        assert_eq!(told, wanted);
        assert_eq!(range(3, 1), "3");
        assert_eq!(range(3, 12), "3 to 14");
    }
}
