//! Texts that are kept as files: the slips of docs/NOTATION.md with their answers, and
//! the examples with the words of their policies.

use std::fs;
use std::path::{Path, PathBuf};

use super::program::Difference;
use crate::frames::Frame;
use crate::model::notation::answers::{answer, bytes_answer, REFUSED};
use crate::model::notation::reader::read;

const SLIPS: &str = concat!(env!("CARGO_MANIFEST_DIR"), "/slips.d");
const EXAMPLES: &str = concat!(env!("CARGO_MANIFEST_DIR"), "/../examples");

/// Behind a slip's name for its answer, and behind an example's for its words.
const EXPECTED: &str = "expected";
const POLICY: &str = "policy";
/// What a slip's answer says where it is no message.
const ACCEPTED: &[u8] = b"accepted\n";
const REFUSAL: &str = "refused ";

/// What is asked about one text, and what must be answered.
pub struct Kept {
    pub name: String,
    pub frames: Vec<Frame>,
    pub expected: Vec<Vec<u32>>,
}

/// All texts that are kept. A folder or a file that is missing is a difference.
pub fn kept() -> Result<Vec<Kept>, Difference> {
    let mut all = Vec::new();
    for path in texts_in(SLIPS)? {
        all.push(slip(&path)?);
    }
    for path in texts_in(EXAMPLES)? {
        all.push(example(&path)?);
    }
    Ok(all)
}

/// The texts of a folder, by name; one at least.
fn texts_in(folder: &str) -> Result<Vec<PathBuf>, Difference> {
    let entries = fs::read_dir(folder)
        .and_then(|entries| entries.collect::<Result<Vec<_>, _>>())
        .map_err(|error| missing(Path::new(folder), &error.to_string()))?;
    let mut texts: Vec<PathBuf> = entries.iter().map(|entry| entry.path()).collect();
    texts.retain(|path| path.extension().is_some_and(|kind| kind == "q"));
    texts.sort();
    if texts.is_empty() {
        return Err(missing(Path::new(folder), "no text is in it"));
    }
    Ok(texts)
}

fn bytes_of(path: &Path) -> Result<Vec<u8>, Difference> {
    fs::read(path).map_err(|error| missing(path, &error.to_string()))
}

fn missing(path: &Path, why: &str) -> Difference {
    Difference {
        report: format!("cannot read {}: {why}", path.display()),
        frames: Vec::new(),
    }
}

/// The text, its message, and where it is read the words that it gives.
fn slip(path: &Path) -> Result<Kept, Difference> {
    let text = bytes_of(path)?;
    let wanted = bytes_of(&path.with_extension(EXPECTED))?;
    let frames = vec![Frame::Text(text.clone()), Frame::Message(text.clone())];
    let given = answer(&frames[0]);
    let mut kept = Kept {
        name: path.display().to_string(),
        frames,
        expected: vec![given],
    };
    let refusal = refusal(&wanted);
    if wanted != ACCEPTED && refusal.is_none() {
        kept.expected.push(bytes_answer(&wanted));
        return Ok(kept);
    }
    let Ok(written) = read(&text) else {
        return Err(differs(&kept, "the model does not read it"));
    };
    let file = Frame::File(written.words());
    let canonical = answer(&file);
    if refusal.is_none() && canonical[0] != 0 {
        return Err(differs(&kept, "the model does not accept its words"));
    }
    kept.expected.push(Vec::new());
    kept.frames.push(file);
    kept.expected.push(refusal.unwrap_or(canonical));
    Ok(kept)
}

fn differs(kept: &Kept, report: &str) -> Difference {
    Difference {
        report: format!("in {}: {report}", kept.name),
        frames: kept.frames[..1].to_vec(),
    }
}

/// The answer for a refused file, by its number and place in decimal.
fn refusal(wanted: &[u8]) -> Option<Vec<u32>> {
    let line = std::str::from_utf8(wanted).ok()?;
    let (number, place) = line.strip_prefix(REFUSAL)?.trim_end().split_once(' ')?;
    Some(vec![
        REFUSED + number.parse::<u32>().ok()?,
        place.parse().ok()?,
    ])
}

/// The text, the words that it must give, and the canonical text of these, read again.
fn example(path: &Path) -> Result<Kept, Difference> {
    let text = bytes_of(path)?;
    let policy = path.with_extension(POLICY);
    let words = decimal_words(&bytes_of(&policy)?)
        .ok_or_else(|| missing(&policy, "it has what is no word"))?;
    let mut kept = Kept {
        name: path.display().to_string(),
        frames: vec![Frame::Text(text.clone())],
        expected: Vec::new(),
    };
    let given = |text: &[u8]| read(text).map(|written| written.words());
    if given(&text).as_ref() != Ok(&words) {
        return Err(differs(
            &kept,
            "the model reads other words than the policy's",
        ));
    }
    kept.frames.push(Frame::File(words.clone()));
    if let Ok(canonical) = crate::model::notation::canonical::canonical(&words) {
        if given(&canonical).as_ref() != Ok(&words) {
            return Err(differs(
                &kept,
                "the model reads its canonical text otherwise",
            ));
        }
        kept.frames.push(Frame::Text(canonical));
    }
    kept.expected = kept.frames.iter().map(answer).collect();
    Ok(kept)
}

/// Decimal words; `#` starts a comment.
fn decimal_words(bytes: &[u8]) -> Option<Vec<u32>> {
    let text = std::str::from_utf8(bytes).ok()?;
    let lines = text
        .lines()
        .map(|line| line.split('#').next().unwrap_or(""));
    let words = lines.flat_map(str::split_whitespace);
    words.map(|word| word.parse().ok()).collect()
}
