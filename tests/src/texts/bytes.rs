//! Damage to the bytes and lines of a text.

use crate::random::Random;

const BYTE_ORDER_MARK: [u8; 3] = [0xEF, 0xBB, 0xBF];
/// Bytes with a meaning, some that stand next to these, and some that have none.
const TELLING: &[u8] = b" \t\n\r#{}:/.0159azAZ-_,\0\x0b\x0c\x7f\xff";

/// One fault that knows nothing of words.
pub fn damage_bytes(random: &mut Random, text: &mut Vec<u8>) {
    let at = random.below(text.len() + 1);
    let any = random.bytes(1);
    match random.below(14) {
        0..=2 => change_byte(random, text, TELLING),
        3 => change_byte(random, text, &any),
        4 if at < text.len() => text.insert(at, text[at]),
        5 if at < text.len() => {
            let other = random.below(text.len());
            text.swap(at, other);
        }
        6..=8 => text.truncate(at),
        9 => move_lines(random, text),
        10 => drop(text.splice(0..0, BYTE_ORDER_MARK)),
        11 => {
            let count = random.within(1, 20);
            drop(text.splice(at..at, random.bytes(count)));
        }
        12 => drop(text.splice(at..at, *b"#")),
        _ => {
            let count = random.within(0, 60);
            *text = random.bytes(count);
        }
    }
}

/// Two lines change places, or one goes.
fn move_lines(random: &mut Random, text: &mut Vec<u8>) {
    let mut lines: Vec<&[u8]> = text.split(|byte| *byte == b'\n').collect();
    let (one, other) = (random.below(lines.len()), random.below(lines.len()));
    if random.percent(50) {
        lines.swap(one, other);
    } else {
        lines.remove(one);
    }
    *text = lines.join(&b'\n');
}

/// One byte another, one gone, or one more; these are of some bytes.
pub fn change_byte(random: &mut Random, bytes: &mut Vec<u8>, of: &[u8]) {
    let at = random.below(bytes.len() + 1);
    let byte = random.pick(of);
    match random.below(3) {
        0 if at < bytes.len() => bytes[at] = byte,
        1 if at < bytes.len() => drop(bytes.remove(at)),
        _ => bytes.insert(at, byte),
    }
}
