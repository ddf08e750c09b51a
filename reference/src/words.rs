//! The words of a script: numbers, lists of numbers, and texts with bytes written as escapes.

/// A number of 64 bits, with or without a sign, as T: decimal, a minus sign before negatives, no leading zero.
pub(crate) fn number<T: TryFrom<i128>>(word: &str) -> Option<T> {
    let digits = word.strip_prefix('-').unwrap_or(word);
    let well_formed = digits.bytes().all(|byte| byte.is_ascii_digit()) && (!digits.starts_with('0') || word == "0");
    let value: i128 = well_formed.then(|| word.parse().ok())??;
    let within_64_bits = (i128::from(i64::MIN)..=i128::from(u64::MAX)).contains(&value);
    within_64_bits.then(|| T::try_from(value).ok())?
}

/// Numbers with commas between; none at all in an empty word.
pub(crate) fn list<T: TryFrom<i128>>(word: &str) -> Option<Vec<T>> {
    if word.is_empty() {
        return Some(Vec::new());
    }
    word.split(',').map(number).collect()
}

/// Numbers with commas between, as a word.
pub(crate) fn listed<T: ToString>(numbers: &[T]) -> String {
    numbers.iter().map(T::to_string).collect::<Vec<_>>().join(",")
}

/// The bytes that a text stands for: `\n`, `\t`, `\r`, `\\` and `\xHH` are one byte each, all else stands for itself.
pub(crate) fn unescaped(text: &[u8]) -> Option<Vec<u8>> {
    let mut bytes = Vec::with_capacity(text.len());
    let mut rest = text.iter().copied();
    while let Some(byte) = rest.next() {
        bytes.push(if byte == b'\\' { escape(&mut rest)? } else { byte });
    }
    Some(bytes)
}

/// The byte that an escape stands for, after its backslash.
fn escape(rest: &mut impl Iterator<Item = u8>) -> Option<u8> {
    match rest.next()? {
        b'n' => Some(b'\n'),
        b't' => Some(b'\t'),
        b'r' => Some(b'\r'),
        b'\\' => Some(b'\\'),
        b'x' => {
            let (high, low) = (digit(rest.next()?)?, digit(rest.next()?)?);
            u8::try_from(16 * high + low).ok()
        }
        _ => None,
    }
}

fn digit(byte: u8) -> Option<u32> {
    char::from(byte).to_digit(16)
}

/// The text that stands for the bytes.
pub(crate) fn escaped(bytes: &[u8]) -> String {
    let mut text = String::with_capacity(bytes.len());
    for &byte in bytes {
        match byte {
            b'\n' => text += "\\n",
            b'\t' => text += "\\t",
            b'\r' => text += "\\r",
            b'\\' => text += "\\\\",
            b' '..=b'~' => text.push(char::from(byte)),
            _ => text += &format!("\\x{byte:02x}"),
        }
    }
    text
}

#[cfg(test)]
mod tests {
    use super::*;

    #[test]
    fn numbers() {
        assert_eq!(number("0"), Some(0u64));
        assert_eq!(number("-7"), Some(-7i64));
        assert_eq!(number("18446744073709551615"), Some(u64::MAX));
        assert_eq!(number("-9223372036854775808"), Some(i64::MIN));
        assert_eq!(number::<i128>("18446744073709551616"), None);
        assert_eq!(number::<i128>("-9223372036854775809"), None);
        assert_eq!(number::<i64>("9223372036854775808"), None);
        assert_eq!(number::<u64>("-1"), None);
        for word in
            ["", "-", "+1", "01", "-0", "00", "1 ", " 1", "1x", "0x1", "1.0", "--1", "9999999999999999999999999"]
        {
            assert_eq!(number::<i128>(word), None, "{word}");
        }
    }

    #[test]
    fn lists() {
        assert_eq!(list("1,-2,3"), Some(vec![1i64, -2, 3]));
        assert_eq!(list::<u64>(""), Some(vec![]));
        for word in [",", "1,", ",1", "1,,2", "1, 2"] {
            assert_eq!(list::<u64>(word), None, "{word}");
        }
        assert_eq!(listed(&[1, -2, 3]), "1,-2,3");
    }

    #[test]
    fn texts() {
        assert_eq!(unescaped(b"a\\n\\t\\r\\\\\\x00\\xfF b"), Some(b"a\n\t\r\\\0\xff b".to_vec()));
        for text in [&b"\\"[..], b"\\q", b"\\x", b"\\x4", b"\\xg0", b"\\X41", b"\\x+1"] {
            assert_eq!(unescaped(text), None);
        }
        let all: Vec<u8> = (0..=255).collect();
        assert_eq!(unescaped(escaped(&all).as_bytes()), Some(all));
    }
}
