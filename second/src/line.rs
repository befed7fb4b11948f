//! Reads lines and decimal numbers, the text parts of a file.

/// The two ways in which a line may end.
#[derive(Debug, Clone, Copy, PartialEq, Eq)]
pub enum LineEnd {
    /// 0A, as UNIX writes it.
    Lf,
    /// 0D 0A, as DOS writes it.
    Crlf,
}

impl LineEnd {
    /// Returns the bytes of this line end.
    pub(crate) const fn bytes(self) -> &'static [u8] {
        match self {
            LineEnd::Lf => b"\n",
            LineEnd::Crlf => b"\r\n",
        }
    }
}

/// A line that has a line end: its text, that line end, and where the next line starts.
pub(crate) struct Line<'a> {
    pub text: &'a [u8],
    pub line_end: LineEnd,
    pub next: usize,
}

/// Returns the line that starts at `start`, or `None` if no 0A follows.
pub(crate) fn line_at(bytes: &[u8], start: usize) -> Option<Line<'_>> {
    let rest = &bytes[start..];
    let length = rest.iter().position(|&byte| byte == b'\n')?;
    let before_newline = &rest[..length];
    let (text, line_end) = match before_newline.strip_suffix(b"\r") {
        Some(text) => (text, LineEnd::Crlf),
        None => (before_newline, LineEnd::Lf),
    };
    Some(Line {
        text,
        line_end,
        next: start + length + 1,
    })
}

/// Returns the line that starts at `start` if it is exactly `text` and has a line end. Looks no
/// further than such a line can reach.
pub(crate) fn exact_line_at<'a>(bytes: &'a [u8], start: usize, text: &[u8]) -> Option<Line<'a>> {
    let furthest = start + text.len() + LineEnd::Crlf.bytes().len();
    let line = line_at(&bytes[..furthest.min(bytes.len())], start)?;
    (line.text == text).then_some(line)
}

/// Returns the value of a decimal number of 1 to `most_digits` digits without a leading zero.
pub(crate) fn decimal(digits: &[u8], most_digits: usize) -> Option<u64> {
    let length_fits = (1..=most_digits).contains(&digits.len());
    let leading_zero = digits.len() > 1 && digits[0] == b'0';
    if !length_fits || leading_zero || !digits.iter().all(u8::is_ascii_digit) {
        return None;
    }
    Some(
        digits
            .iter()
            .fold(0, |value, digit| 10 * value + u64::from(digit - b'0')),
    )
}

#[cfg(test)]
mod tests {
    use super::*;

    /// Returns everything that a line reports.
    fn told(line: Option<Line<'_>>) -> Option<(&[u8], LineEnd, usize)> {
        line.map(|line| (line.text, line.line_end, line.next))
    }

    #[test]
    fn line_tells_its_text_its_line_end_and_where_the_next_starts() {
        let bytes = b"a\nb\r\n\n\r\nc\r\r\nd\re\nf\r";
        let mut start = 0;
        for expected in [
            (&b"a"[..], LineEnd::Lf, 2),
            (b"b", LineEnd::Crlf, 5),
            (b"", LineEnd::Lf, 6),
            (b"", LineEnd::Crlf, 8),
            (b"c\r", LineEnd::Crlf, 12),
            (b"d\re", LineEnd::Lf, 16),
        ] {
            assert_eq!(told(line_at(bytes, start)), Some(expected));
            start = expected.2;
        }
        assert_eq!(told(line_at(bytes, start)), None);
        assert_eq!(told(line_at(bytes, bytes.len())), None);
    }

    #[test]
    fn exact_line_tells_the_same() {
        for (bytes, line_end, next) in [
            (&b"x\n..\n"[..], LineEnd::Lf, 5),
            (b"x\n..\r\n", LineEnd::Crlf, 6),
            (b"x\n..\n\r\n", LineEnd::Lf, 5),
            (b"x\n..\r\n..\n", LineEnd::Crlf, 6),
        ] {
            let expected = Some((&b".."[..], line_end, next));
            assert_eq!(told(exact_line_at(bytes, 2, b"..")), expected, "{bytes:?}");
        }
        for other in [
            "x\n",
            "x\n.\n",
            "x\n..",
            "x\n..\r",
            "x\n..\r\r\n",
            "x\n.. \n",
            "x\n...\n",
            "x\n\n..\n",
        ] {
            let found = exact_line_at(other.as_bytes(), 2, b"..");
            assert_eq!(told(found), None, "{other:?}");
        }
    }
}
