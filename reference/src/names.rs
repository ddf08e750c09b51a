//! The text of names: `NUMBER NAME` a line, for boxes of a plan.

use std::ops::Range;

use crate::cursor::Cursor;
use crate::plan::Plan;
use crate::text::MAX_DIGITS;

/// A text of more bytes is refused at line 0.
pub const MAX_BYTES: usize = 65_536;

/// For each vertex its name, if it has one.
pub type Names<'a> = Vec<Option<&'a [u8]>>;

/// The names of a plan's boxes, or the number of the line that is refused: the first that is not in its form, whose number is that
/// of no box, or of one named before. Lines count from 1; 0 stands for a text that is too long.
pub fn read<'a>(plan: &Plan, text: &'a [u8]) -> Result<Names<'a>, usize> {
    let mut names = vec![None; plan.vertices()];
    if text.len() > MAX_BYTES {
        return Err(0);
    }
    for (index, line) in text.split_inclusive(|&byte| byte == b'\n').enumerate() {
        let (number, name) = read_line(line).ok_or(index + 1)?;
        let free = number < plan.vertices() && !plan.is_via(number) && names[number].is_none();
        if !free {
            return Err(index + 1);
        }
        names[number] = Some(name);
    }
    Ok(names)
}

/// Number and name of a line that ends in LF.
fn read_line(line: &[u8]) -> Option<(usize, &[u8])> {
    let mut cursor = Cursor::new(line.strip_suffix(b"\n")?);
    let number = cursor.number(MAX_DIGITS)?;
    cursor.expect(b" ")?;
    let name = cursor.rest();
    is_name(name).then_some((number as usize, name))
}

/// Words with single spaces between, of characters that may stand in a name.
fn is_name(name: &[u8]) -> bool {
    let mut rest = name;
    while let Some(length) = character(rest) {
        rest = &rest[length..];
    }
    rest.is_empty() && name.split(|&byte| byte == b' ').all(|word| !word.is_empty())
}

/// How many bytes the first character of the text has, if it may stand in a name: UTF-8 by the standard's table, no control
/// character, and neither U+FFFE nor U+FFFF, which XML has not.
fn character(text: &[u8]) -> Option<usize> {
    let is = |index: usize, range: Range<u16>| text.get(index).is_some_and(|&byte| range.contains(&u16::from(byte)));
    let more = |index| is(index, 0x80..0xc0);
    let bare = text.starts_with(&[0xef, 0xbf, 0xbe]) || text.starts_with(&[0xef, 0xbf, 0xbf]);
    match text.first()? {
        0x20..=0x7e => Some(1),
        0xc2..=0xdf if more(1) => Some(2),
        0xe0 if is(1, 0xa0..0xc0) && more(2) => Some(3),
        0xed if is(1, 0x80..0xa0) && more(2) => Some(3),
        0xe1..=0xec | 0xee..=0xef if more(1) && more(2) && !bare => Some(3),
        0xf0 if is(1, 0x90..0xc0) && more(2) && more(3) => Some(4),
        0xf1..=0xf3 if more(1) && more(2) && more(3) => Some(4),
        0xf4 if is(1, 0x80..0x90) && more(2) && more(3) => Some(4),
        _ => None,
    }
}

#[cfg(test)]
mod tests {
    use super::*;
    use crate::text;

    /// Boxes 0, 2 and 3, and the via 1.
    const PLAN: &[u8] =
        b"(plan 3 1 10)\n(level (box 3))\n(level (via))\n(level (box 1) (box 1))\n(seg 0 1)\n(seg 1 3)\n(end)\n";

    fn refused(text: &[u8]) -> Option<usize> {
        read(&text::read(PLAN).expect("an acceptable plan"), text).err()
    }

    #[test]
    fn names_by_vertex() {
        let plan = text::read(PLAN).expect("an acceptable plan");
        let names = read(&plan, b"3 bilge pump\n0 a\n").expect("names");
        assert_eq!(names, [Some(&b"a"[..]), None, None, Some(b"bilge pump")]);
        assert_eq!(read(&plan, b""), Ok(vec![None; 4]));
    }

    #[test]
    fn lines_not_in_their_form() {
        for line in [
            "", "0", "0 ", " 0 a", "0  a", "0 a ", "0 a  b", "00 a", "03 a", "000000 a", "-0 a", "+0 a", "0\ta", "a 0",
            "0 a\r", "0a",
        ] {
            assert_eq!(refused(format!("{line}\n").as_bytes()), Some(1), "{line:?}");
            assert_eq!(refused(format!("2 b\n{line}\n3 c\n").as_bytes()), Some(2), "{line:?}");
        }
        assert_eq!(refused(b"0 a"), Some(1));
        assert_eq!(refused(b"0 a\n2 b"), Some(2));
        assert_eq!(refused(b"0 a\n\n"), Some(2));
        assert_eq!(refused(b"0 a\n 2 b\n3 c"), Some(2));
    }

    #[test]
    fn numbers_of_no_unnamed_box() {
        assert_eq!(refused(b"0 a\n1 b\n"), Some(2));
        assert_eq!(refused(b"4 a\n"), Some(1));
        assert_eq!(refused(b"99999 a\n"), Some(1));
        assert_eq!(refused(b"0 a\n2 b\n0 c\n"), Some(3));
    }

    #[test]
    fn bytes_of_a_name() {
        let answer = |bytes: &[u8]| refused(&[b"0 ", bytes, b"\n"].concat());
        for byte in 0..=0xff {
            let taken = (0x21..0x7f).contains(&byte);
            assert_eq!(answer(&[byte]), (!taken).then_some(1), "{byte:#x}");
        }
        // Every two bytes, and each of them before and after others: as the standard library reads them.
        for (a, b) in (0x80..=0xff).flat_map(|a| (0x70..=0xff).map(move |b| (a, b))) {
            for name in [vec![a, b], vec![a, b, 0x80], vec![a, b, 0xbf], vec![a, b, 0x80, 0xbf], vec![a, b, 0xbf, 0x7e]]
            {
                let text = std::str::from_utf8(&name).ok();
                let taken = text.is_some_and(|text| !text.contains(['\u{7f}', '\u{fffe}', '\u{ffff}']));
                assert_eq!(answer(&name), (!taken).then_some(1), "{name:x?}");
            }
        }
        assert_eq!(answer("Ankerspill ⚓ 漁船 𝛑".as_bytes()), None);
    }

    #[test]
    fn too_long() {
        let mut names = b"0 ".to_vec();
        names.resize(MAX_BYTES - 1, b'a');
        names.push(b'\n');
        assert_eq!(refused(&names), None);
        names.insert(2, b'a');
        assert_eq!(refused(&names), Some(0));
        assert_eq!(refused(&vec![b'\n'; MAX_BYTES + 1]), Some(0));
    }
}
