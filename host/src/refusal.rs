use crate::raw;
use std::error::Error;
use std::{fmt, str};

/// Why an image was not built, or a word of it not told of.
///
/// The numbers are those of document 01, 'What comes back', and of document 02. `place` is an offset in the image; `count` is 0 but
/// for 50, where it is the number of words that the program has. It is shown as the Rust's own text, where there is one.
///
/// ```
/// let refusal = haspnettle::build_image(&[]).unwrap_err();
/// assert_eq!((refusal.number, refusal.place, refusal.count, refusal.text()), (2, 0, 0, None));
/// assert_eq!(refusal.to_string(), "a record is due and under 6 bytes are left, or its length is under 2 or passes its parent's end (2), at byte 0");
/// ```
#[derive(Debug, Clone, Copy, PartialEq, Eq, Hash)]
#[non_exhaustive]
pub struct Refusal {
    /// Which refusal it is.
    pub number: u8,
    /// Where in the image it arose.
    pub place: u32,
    /// The words that the program has, where they are too many (50).
    pub count: u32,
    pub(crate) text: Option<Text>,
}

impl Refusal {
    /// Place and count of the packed answer to `image`, where it is an acceptance; else its three numbers, and its text.
    pub(crate) fn unpack(answer: u64, image: &[u8]) -> Result<(u32, u32), Refusal> {
        let number = (answer & 0xFF) as u8;
        let place = (answer >> 8 & 0xFF_FFFF) as u32;
        let count = (answer >> 32) as u32;
        if number == 0 {
            return Ok((place, count));
        }
        // The others have none: it need not be asked for.
        let text = if matches!(number, 10..=22 | 40..=47) { Text::of(image) } else { None };
        Err(Refusal { number, place, count, text })
    }

    /// The Rust's own text, which 10 to 22 and 40 to 47 have.
    ///
    /// ```
    /// # use haspnettle::ast::Contract;
    /// let no_main = Contract { name: "c".into(), storage: vec![], structs: vec![], functions: vec![] };
    /// let refusal = haspnettle::build_image(&haspnettle::image(&no_main).unwrap()).unwrap_err();
    /// assert_eq!(refusal.text(), Some("CodegenError: main function not found"));
    /// ```
    pub fn text(&self) -> Option<&str> {
        self.text.as_ref().map(Text::as_str)
    }

    /// What the documents say of the number.
    pub fn meaning(&self) -> &'static str {
        match self.number {
            1 => "image over 65,536 bytes",
            2 => "a record is due and under 6 bytes are left, or its length is under 2 or passes its parent's end",
            3 => "kind not due there",
            4 => "bytes left after the last part, or after the Contract",
            5 => "Name, Flag, Op or Int with wrong bytes or size",
            6 => "depth 65",
            7 => "a count above its bound",
            10 => "undefined identifier",
            11 => "assign to an undefined name",
            12 => "type mismatch in assign",
            13 => "type mismatch in return",
            14 => "struct lacks the field",
            15 => "field of a non-struct",
            16 => "Init type mismatch",
            17 => "unknown Init field",
            18 => "undefined struct",
            19 => "wrong argument count",
            20 => "argument type mismatch",
            21 => "undefined function",
            22 => "operand types differ",
            30 => "ambiguous field",
            40 => "no function `main`",
            41 => "registers exhausted",
            42 => "undefined variable in generation, read",
            43 => "undefined variable in generation, assigned",
            44 => "unknown storage, written",
            45 => "unknown mapping, written",
            46 => "unknown storage, read",
            47 => "unknown mapping, read",
            50 => "code slice shorter than the program",
            51 => "function table shorter than the functions",
            52 => "text slice shorter than 256 bytes",
            53 => "index not below the word count",
            _ => "unknown refusal",
        }
    }
}

impl fmt::Display for Refusal {
    fn fmt(&self, f: &mut fmt::Formatter<'_>) -> fmt::Result {
        if let Some(text) = self.text() {
            return f.write_str(text);
        }
        write!(f, "{} ({})", self.meaning(), self.number)?;
        match self.number {
            1 | 52 | 53 => Ok(()),
            50 => write!(f, ", {} words needed", self.count),
            51 => write!(f, ", {} functions", self.count),
            _ => write!(f, ", at byte {}", self.place),
        }
    }
}

impl Error for Refusal {}

/// The Rust's own text of an image's refusal, in place, so that a refusal needs no heap.
#[derive(Clone, Copy, PartialEq, Eq, Hash)]
pub(crate) struct Text {
    // Zero past the text.
    bytes: [u8; 256],
    len: usize,
}

impl Text {
    /// None where the image is built or its refusal has no text.
    pub(crate) fn of(image: &[u8]) -> Option<Text> {
        let mut bytes = [0; 256];
        let len = (raw::text(image, &mut bytes) >> 32) as usize;
        (len > 0).then_some(Text { bytes, len })
    }

    pub(crate) fn as_str(&self) -> &str {
        // It lies within the slice (its proof) and is ASCII, as names are, so the default is never taken.
        self.bytes.get(..self.len).and_then(|held| str::from_utf8(held).ok()).unwrap_or_default()
    }
}

impl fmt::Debug for Text {
    fn fmt(&self, f: &mut fmt::Formatter<'_>) -> fmt::Result {
        self.as_str().fmt(f)
    }
}

#[cfg(test)]
mod tests {
    use super::Refusal;

    const NUMBERS: [u8; 33] =
        [1, 2, 3, 4, 5, 6, 7, 10, 11, 12, 13, 14, 15, 16, 17, 18, 19, 20, 21, 22, 30, 40, 41, 42, 43, 44, 45, 46, 47, 50, 51, 52, 53];

    fn bare(number: u8, place: u32, count: u32) -> Refusal {
        Refusal { number, place, count, text: None }
    }

    #[test]
    fn every_refusal_has_its_own_meaning() {
        let shown: Vec<String> = NUMBERS.iter().map(|&number| bare(number, 7, 9).to_string()).collect();
        for (i, line) in shown.iter().enumerate() {
            assert!(line.contains(&format!("({})", NUMBERS[i])) && !line.contains("unknown refusal"), "{line}");
            assert!(shown[..i].iter().all(|s| s != line), "{line}");
        }
        for number in (0..=255).filter(|n| !NUMBERS.contains(n)) {
            assert_eq!(bare(number, 0, 0).meaning(), "unknown refusal");
        }
    }

    #[test]
    fn places_and_counts_are_told() {
        assert_eq!(bare(30, 78, 0).to_string(), "ambiguous field (30), at byte 78");
        assert_eq!(bare(50, 0, 10).to_string(), "code slice shorter than the program (50), 10 words needed");
        assert_eq!(bare(51, 0, 3).to_string(), "function table shorter than the functions (51), 3 functions");
        assert_eq!(bare(52, 0, 0).to_string(), "text slice shorter than 256 bytes (52)");
        assert_eq!(bare(53, 0, 0).to_string(), "index not below the word count (53)");
        assert_eq!(bare(1, 0, 0).to_string(), "image over 65,536 bytes (1)");
    }

    #[test]
    fn every_answer_is_unpacked() {
        assert_eq!(Refusal::unpack(0, &[]), Ok((0, 0)));
        assert_eq!(Refusal::unpack(10 << 32, &[]), Ok((0, 10)));
        assert_eq!(Refusal::unpack(u64::MAX - 255, &[]), Ok((0xFF_FFFF, u32::MAX)));
        assert_eq!(Refusal::unpack(46 + (0xABCDEF << 8), &[]), Err(bare(46, 0xABCDEF, 0)));
        assert_eq!(Refusal::unpack(u64::MAX, &[]), Err(bare(255, 0xFF_FFFF, u32::MAX)));
    }
}
