//! Words of a text in the notation: what each byte is, names, numbers and prefixes.

pub const IN_WORD: u8 = 0;
pub const BLANK: u8 = 1;
pub const MARK: u8 = 2;
pub const COMMENT: u8 = 3;

/// What each byte is.
const CLASSES: [u8; 256] = {
    let mut classes = [IN_WORD; 256];
    classes[b' ' as usize] = BLANK;
    classes[b'\t' as usize] = BLANK;
    classes[b'\n' as usize] = BLANK;
    classes[b'\r' as usize] = BLANK;
    classes[b'{' as usize] = MARK;
    classes[b'}' as usize] = MARK;
    classes[b':' as usize] = MARK;
    classes[b'#' as usize] = COMMENT;
    classes
};

pub fn class(byte: u8) -> u8 {
    CLASSES[byte as usize]
}

/// Whether it may stand in a name, behind the first letter.
const IN_NAME: [bool; 256] = {
    let mut may = [false; 256];
    let mut byte = 0;
    while byte < 256 {
        may[byte] = (byte as u8).is_ascii_alphanumeric() || byte as u8 == b'-' || byte as u8 == b'_';
        byte += 1;
    }
    may
};

#[rustfmt::skip]
pub fn is_name(word: &[u8]) -> bool {
    word.first().is_some_and(u8::is_ascii_alphabetic)
        && word.iter().all(|&byte| IN_NAME[byte as usize])
        && !matches!(
            word,
            b"operator" | b"node" | b"inside" | b"between" | b"below" | b"allow" | b"deny" | b"reserve" | b"none"
                | b"left" | b"right" | b"larger" | b"smaller" | b"sum" | b"any" | b"never" | b"in" | b"protocol"
                | b"tcp" | b"udp" | b"icmp" | b"from" | b"to" | b"port" | b"vlan" | b"limit"
        )
}

/// Decimal digits with no zero before others, below 2^32.
pub fn number(word: &[u8]) -> Option<u32> {
    if word.is_empty() || word.len() > 10 || word[0] == b'0' && word.len() > 1 {
        return None;
    }
    let mut number = 0;
    for byte in word {
        let digit = byte.wrapping_sub(b'0');
        if digit > 9 {
            return None;
        }
        number = number * 10 + u64::from(digit);
    }
    u32::try_from(number).ok()
}

/// An address and a length, also where bits are set behind it.
pub fn prefix(word: &[u8]) -> Option<(u32, u32)> {
    let (mut address, mut rest) = part(word)?;
    for _ in 1..4 {
        let (value, behind) = part(rest.strip_prefix(b".")?)?;
        (address, rest) = (address << 8 | value, behind);
    }
    match rest {
        [] => Some((address, 32)),
        [b'/', length @ ..] => Some((address, number(length).filter(|&length| length <= 32)?)),
        _ => None,
    }
}

/// A number of an address, and what stands behind it.
fn part(bytes: &[u8]) -> Option<(u32, &[u8])> {
    let (mut value, mut length) = (0, 0);
    while length < 3 && bytes.get(length).is_some_and(u8::is_ascii_digit) {
        value = value * 10 + u32::from(bytes[length] - b'0');
        length += 1;
    }
    let padded = length > 1 && bytes[0] == b'0';
    (length > 0 && !padded && value < 256).then(|| (value, &bytes[length..]))
}

/// Whether one comes of the other by one byte other, more or less.
pub fn differ_by_one(one: &[u8], other: &[u8]) -> bool {
    let (short, long) = if one.len() <= other.len() {
        (one, other)
    } else {
        (other, one)
    };
    let same = short.iter().zip(long).take_while(|(a, b)| a == b).count();
    match long.len() - short.len() {
        0 => same < short.len() && short[same + 1..] == long[same + 1..],
        1 => short[same..] == long[same + 1..],
        _ => false,
    }
}
