//! The words of a text, and names.

/// Bytes that are words of their own.
const MARKS: [u8; 3] = [b'{', b'}', b':'];
const BLANKS: [u8; 4] = [b' ', b'\t', b'\n', b'\r'];
const COMMENT: u8 = b'#';

/// The notation's own words, which are no names.
pub const OWN_WORDS: [&str; 26] = [
    "operator", "node", "inside", "between", "below", "allow", "deny", "reserve", "none", "left",
    "right", "larger", "smaller", "sum", "any", "never", "in", "protocol", "tcp", "udp", "icmp",
    "from", "to", "port", "vlan", "limit",
];

#[derive(Clone, Copy, PartialEq, Eq, Debug)]
pub struct Word<'a> {
    pub bytes: &'a [u8],
    pub place: usize,
}

impl Word<'_> {
    pub fn is(&self, word: &str) -> bool {
        self.bytes == word.as_bytes()
    }

    /// Which of these it is.
    pub fn among(&self, words: &[&str]) -> Option<usize> {
        words.iter().position(|word| self.is(word))
    }

    /// The end of the text stands as a word of no bytes behind the last one.
    pub fn is_end(&self) -> bool {
        self.bytes.is_empty()
    }

    pub fn is_name(&self) -> bool {
        let letter = self.bytes.first().is_some_and(u8::is_ascii_alphabetic);
        let in_name = |byte: &u8| byte.is_ascii_alphanumeric() || [b'-', b'_'].contains(byte);
        letter && self.bytes.iter().all(in_name) && self.among(&OWN_WORDS).is_none()
    }
}

/// All words in their order, and the end.
pub fn words(text: &[u8]) -> Vec<Word<'_>> {
    let mut words = Vec::new();
    let mut place = 0;
    while let Some(&byte) = text.get(place) {
        let rest = &text[place..];
        let length = match byte {
            COMMENT => until(rest, |byte| byte == b'\n'),
            _ if BLANKS.contains(&byte) => 1,
            _ if MARKS.contains(&byte) => 1,
            _ => until(rest, ends_word),
        };
        if byte != COMMENT && !BLANKS.contains(&byte) {
            let bytes = &rest[..length];
            words.push(Word { bytes, place });
        }
        place += length;
    }
    let bytes = &text[place..];
    words.push(Word { bytes, place });
    words
}

fn ends_word(byte: u8) -> bool {
    byte == COMMENT || BLANKS.contains(&byte) || MARKS.contains(&byte)
}

/// How many bytes stand before the first such byte, or all.
fn until(bytes: &[u8], stops: impl Fn(u8) -> bool) -> usize {
    let first = bytes.iter().position(|byte| stops(*byte));
    first.unwrap_or(bytes.len())
}

/// Whether one comes of the other by another byte, one byte more or one byte less.
pub fn differ_by_one(one: &[u8], other: &[u8]) -> bool {
    let (short, long) = if one.len() <= other.len() {
        (one, other)
    } else {
        (other, one)
    };
    let same = short.iter().zip(long).take_while(|(a, b)| a == b).count();
    match long.len() - short.len() {
        0 => same < short.len() && short[same + 1..] == long[same + 1..],
        1 => short[same..] == long[same + 1..],
        _ => false,
    }
}
