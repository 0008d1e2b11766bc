//! Texts with long words, long comments, and many bytes that say nothing.

use crate::random::Random;

/// How long what is long is, at most.
const MOST: usize = 90_000;

/// A text with one long thing in it.
pub fn long_text(random: &mut Random) -> Vec<u8> {
    let length = random.within(MOST / 2, MOST);
    let long = |byte: &str| byte.repeat(length);
    let name = long(random.pick(&["a", "b-", "Z"]));
    let text = match random.below(12) {
        0 => format!("node {name} {{}}"),
        1 => format!("node {name}{{ {name}: allow any {name}x: allow any {name}: deny any }}"),
        2 => format!("node {name} {{ node {name} {{"),
        3 => format!("node a inside {name} {{}}"),
        4 => format!("node a {{ x: reserve {} kbit/s any }}", long("1")),
        5 => format!("node a {{ x: allow to {} }}", long("1.")),
        6 => format!("node a {{ x: allow to 1.2.3.4/{} }}", long("0")),
        7 => format!("#{}\nnode a {{}}{}", long("#"), long("\r\n")),
        8 => format!("node a {{}}{}", long(" #\n")),
        9 => format!("node a{}", long("{")),
        10 => format!("node a {{ {}", long("x:")),
        _ => long(random.pick(&["}", "\n", "\t7", "operator ", "\0"])),
    };
    text.into_bytes()
}
