//! What stands in a box: the rows of its label and the height of its letters.

/// What ends a row that is cut.
const SIGN: &str = "…";

/// Most rows of a label.
const MAX_ROWS: usize = 3;

/// Columns of the longest word for which letters are made smaller.
const WIDEST: i64 = 12;

/// The rows of a label and the height of its letters, in thousandths of a step.
#[derive(Clone, Debug, PartialEq, Eq)]
pub struct Label {
    /// From the top; at most three.
    pub rows: Vec<Vec<u8>>,
    /// The height of the letters. One column of a row is two thirds of it wide.
    pub size: i64,
}

impl Label {
    /// The number of a vertex, in a box of that half-width; `unit` is the measure of the drawing, both in steps.
    pub fn of_number(number: usize, half_width: i64, unit: i64) -> Label {
        let digits = number.to_string().into_bytes();
        let size = (200 * unit).min(3_000 * half_width / digits.len() as i64);
        Label { rows: vec![digits], size }
    }

    /// A name in such a box.
    pub fn of_name(name: &[u8], half_width: i64, unit: i64) -> Label {
        let widest = name.split(|&byte| byte == b' ').map(columns).max().unwrap_or(1).clamp(1, WIDEST);
        let size = (100 * unit).min(3_000 * half_width / widest);
        Label { rows: rows(name, 3_000 * half_width / size, MAX_ROWS), size }
    }

    /// How far each row's base line lies below the box's centre, in heights of letters.
    pub fn shifts(&self) -> &'static [&'static str] {
        match self.rows.len() {
            1 => &[".35"],
            2 => &["-.25", ".95"],
            _ => &["-.85", ".35", "1.55"],
        }
    }
}

/// How wide a text is: a character of three or four bytes counts twice.
fn columns(text: &[u8]) -> i64 {
    let of_byte = |&byte: &u8| match byte {
        0x80..=0xbf => 0,
        0xe0.. => 2,
        _ => 1,
    };
    text.iter().map(of_byte).sum()
}

/// At most `count` rows of at most `width` columns, filled with whole words as long as they fit; what does not is cut.
fn rows(name: &[u8], width: i64, count: usize) -> Vec<Vec<u8>> {
    if name.is_empty() {
        return Vec::new();
    }
    let ends = (1..=name.len()).filter(|&end| name.get(end).is_none_or(|&byte| byte == b' '));
    let end = ends.take_while(|&end| columns(&name[..end]) <= width).last();
    let first_word = name.split(|&byte| byte == b' ').next().unwrap_or(name);
    let (row, end) = match (count, end) {
        (1, Some(end)) if end == name.len() => (name.to_vec(), end),
        (1, _) => (cut(name, width - 1), name.len()),
        (_, Some(end)) => (name[..end].to_vec(), end),
        (_, None) => (cut(first_word, width - 1), first_word.len()),
    };
    let rest = name.get(end + 1..).unwrap_or_default();
    let mut all = vec![row];
    if count > 1 {
        all.extend(rows(rest, width, count - 1));
    }
    all
}

/// The longest front of whole characters of at most `width` columns, without a space at its end; then the sign.
fn cut(text: &[u8], width: i64) -> Vec<u8> {
    let is_end = |end: &usize| text.get(*end).is_none_or(|byte| !(0x80..0xc0).contains(byte));
    let end = (0..=text.len()).filter(is_end).take_while(|&end| columns(&text[..end]) <= width).last().unwrap_or(0);
    let front = text[..end].strip_suffix(b" ").unwrap_or(&text[..end]);
    [front, SIGN.as_bytes()].concat()
}

#[cfg(test)]
mod tests {
    use super::*;

    fn rows_of(name: &str, width: i64) -> Vec<String> {
        rows(name.as_bytes(), width, MAX_ROWS).into_iter().map(|row| String::from_utf8(row).expect("UTF-8")).collect()
    }

    #[test]
    fn widths() {
        assert_eq!(columns(b"VHF radio"), 9);
        assert_eq!(columns("Kühlbox".as_bytes()), 7);
        assert_eq!(columns("漁船 ⚓𝛑".as_bytes()), 9);
    }

    #[test]
    fn words_are_wrapped() {
        assert_eq!(rows_of("", 5), Vec::<String>::new());
        assert_eq!(rows_of("deck wash pump", 14), ["deck wash pump"]);
        assert_eq!(rows_of("deck wash pump", 13), ["deck wash", "pump"]);
        assert_eq!(rows_of("deck wash pump", 9), ["deck wash", "pump"]);
        assert_eq!(rows_of("deck wash pump", 8), ["deck", "wash", "pump"]);
        assert_eq!(rows_of("a b c d e f", 3), ["a b", "c d", "e f"]);
        assert_eq!(rows_of("漁船 漁船", 4), ["漁船", "漁船"]);
    }

    #[test]
    fn what_does_not_fit_is_cut() {
        assert_eq!(rows_of("a b c d e f g", 3), ["a b", "c d", "e…"]);
        assert_eq!(rows_of("a b c de f", 3), ["a b", "c", "de…"]);
        assert_eq!(rows_of("a b c de f", 1), ["a", "b", "…"]);
        assert_eq!(rows_of("ab c", 1), ["…", "c"]);
        assert_eq!(rows_of("windlass motor", 5), ["wind…", "motor"]);
        assert_eq!(rows_of("windlass windlass windlass", 4), ["win…", "win…", "win…"]);
        assert_eq!(rows_of("a b windlass", 3), ["a b", "wi…"]);
        assert_eq!(rows_of("a b c windlass", 3), ["a b", "c", "wi…"]);
        assert_eq!(rows_of("漁船漁船", 4), ["漁…"]);
        assert_eq!(rows_of("漁船漁船", 3), ["漁…"]);
        assert_eq!(rows_of("漁船漁船", 2), ["…"]);
        assert_eq!(rows_of("ééééé", 3), ["éé…"]);
        assert_eq!(rows_of("a b cd efgh", 5), ["a b", "cd", "efgh"]);
        assert_eq!(rows(b"ab cd", 4, 1), ["ab…".as_bytes()]);
        assert_eq!(rows(b"abc de", 5, 1), ["abc…".as_bytes()]);
        assert_eq!(rows(b"abcde", 5, 1), [b"abcde"]);
    }

    #[test]
    fn letters() {
        assert_eq!(Label::of_number(7, 8, 20).size, 4_000);
        assert_eq!(Label::of_number(1_023, 1, 20).size, 750);
        assert_eq!(Label::of_number(100, 1, 10_000).size, 1_000);
        // 24,000 thousandths, of which a word of 11 takes 2,181 a column.
        let label = Label::of_name(b"electronics battery", 8, 22);
        assert_eq!((label.size, label.rows.len()), (2_181, 2));
        // Of longer words 12 columns stay.
        let label = Label::of_name(b"uninterruptible supply", 4, 1_000);
        assert_eq!((label.size, label.rows), (1_000, vec!["uninterrupt…".as_bytes().to_vec(), b"supply".to_vec()]));
        assert_eq!(Label::of_name(b"a", 200, 1).size, 100);
    }

    #[test]
    fn rows_never_exceed_their_width() {
        let name = "ä windlass of 漁船 and electronics-and-more 𝛑 x".as_bytes();
        for start in (0..name.len()).filter(|&start| start == 0 || name[start - 1] == b' ') {
            for width in 1..60 {
                let rows = rows(&name[start..], width, MAX_ROWS);
                assert!(rows.len() <= MAX_ROWS);
                // The sign counts as one column here, two by its bytes.
                let wide = |row: &Vec<u8>| columns(row) - i64::from(row.ends_with(SIGN.as_bytes()));
                assert!(rows.iter().all(|row| wide(row) <= width && std::str::from_utf8(row).is_ok()));
            }
        }
    }
}
