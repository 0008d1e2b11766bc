//! Texts of the largest policy as people write them: the same in every run.

use std::fmt::Write;

use crate::inputs::Dice;

const HEAD: &str = "\
# The studio's policy. Rules of a team stand in its node.
operator sibling
operator parent
operator cautious {
              allow     deny      reserve
    allow     allow     deny      right
    deny      deny      deny      deny
    reserve   left      deny      smaller
}

";

const PLACES: [&str; 10] = [
    "austin",
    "lisbon",
    "match",
    "voice",
    "lobby",
    "patch-server",
    "build_farm",
    "Region-EU",
    "telemetry",
    "qa",
];

const LABELS: [&str; 12] = [
    "web",
    "match-traffic",
    "voice",
    "shut",
    "ping",
    "ssh-admin",
    "dns",
    "backup_night",
    "updates",
    "all",
    "Login",
    "rest",
];

const REMARKS: [&str; 4] = [
    "asked for by the match team",
    "until the move is done",
    "see the plan of the network",
    "{ was 40 Mbit/s before: too little }",
];

const MOST_DEPTH: u32 = 16;

/// A policy of so many nodes, each with so many rules.
pub fn text(nodes: usize, rules: usize) -> Vec<u8> {
    let mut dice = Dice::new();
    let mut text = HEAD.to_string();
    let mut depth = 0;
    for node in 0..nodes {
        let next = next_depth(&mut dice, depth);
        for left in (next..=depth).rev() {
            line(&mut text, left - 1, "}");
        }
        depth = next;
        head(&mut dice, &mut text, node, depth);
        let first = dice.below(LABELS.len() as u32) as usize;
        for rule in 0..rules {
            let label = label(first, rule);
            one_rule(&mut dice, &mut text, label, depth);
        }
    }
    for left in (1..=depth).rev() {
        line(&mut text, left - 1, "}");
    }
    text.into_bytes()
}

/// Deeper than the node before more often than not; only the root has depth 1.
fn next_depth(dice: &mut Dice, depth: u32) -> u32 {
    match depth {
        0 => 1,
        1 => 2,
        _ if depth < MOST_DEPTH && dice.below(4) < 3 => depth + 1,
        _ => 2 + dice.below(depth - 1),
    }
}

fn line(text: &mut String, blocks: u32, words: &str) {
    for _ in 0..blocks {
        text.push_str("    ");
    }
    text.push_str(words);
    text.push('\n');
}

fn one_of<'a>(dice: &mut Dice, of: &[&'a str]) -> &'a str {
    of[dice.below(of.len() as u32) as usize]
}

/// A remark at times, and the line of a node.
fn head(dice: &mut Dice, text: &mut String, node: usize, depth: u32) {
    text.push('\n');
    if dice.below(3) == 0 {
        let remark = one_of(dice, &REMARKS);
        line(text, depth - 1, &format!("# {remark}"));
    }
    let name = match node {
        0 => "studio".to_string(),
        _ => format!("{}-{}", PLACES[node % PLACES.len()], node / PLACES.len()),
    };
    let inside = if dice.below(8) == 0 { " inside cautious" } else { "" };
    let below = if dice.below(16) == 0 {
        " between sibling below parent"
    } else {
        ""
    };
    line(text, depth - 1, &format!("node {name}{inside}{below} {{"));
}

/// A label of a node's rules, of which no two are alike.
fn label(first: usize, rule: usize) -> String {
    let name = LABELS[(first + rule) % LABELS.len()];
    match rule / LABELS.len() {
        0 => name.to_string(),
        round => format!("{name}-{round}"),
    }
}

fn one_rule(dice: &mut Dice, text: &mut String, mut words: String, depth: u32) {
    words.push_str(": ");
    action(dice, &mut words);
    matching(dice, &mut words);
    if dice.below(8) == 0 {
        let remark = one_of(dice, &REMARKS);
        _ = write!(words, "    # {remark}");
    }
    line(text, depth, &words);
}

fn action(dice: &mut Dice, words: &mut String) {
    match dice.below(4) {
        0 => words.push_str("allow"),
        1 => words.push_str("deny"),
        _ => {
            let unit = one_of(dice, &["kbit/s", "Mbit/s", "Mbit/s", "Gbit/s"]);
            _ = write!(words, "reserve {} {unit}", 1 + dice.below(90));
        }
    }
}

fn matching(dice: &mut Dice, words: &mut String) {
    match dice.below(32) {
        0 => return words.push_str(" any"),
        1 => return words.push_str(" never"),
        _ => {}
    }
    if dice.below(6) == 0 {
        _ = write!(words, " in {}", dice.below(48));
    }
    let protocol = one_of(dice, &["", " tcp", " udp", " udp", " icmp", " protocol 89"]);
    words.push_str(protocol);
    if dice.below(3) == 0 {
        words.push_str(" from");
        address(dice, words);
    }
    words.push_str(" to");
    address(dice, words);
    if matches!(protocol, " tcp" | " udp") {
        _ = write!(words, " port {}", one_of(dice, &["443", "27015", "53", "22", "8080"]));
    }
}

fn address(dice: &mut Dice, words: &mut String) {
    let (a, b, c) = (dice.below(8), dice.below(64), 1 + dice.below(254));
    _ = match dice.below(4) {
        0 => write!(words, " 10.{a}.0.0/16"),
        1 => write!(words, " 10.{a}.{b}.0/24"),
        _ => write!(words, " 10.{a}.{b}.{c}"),
    };
}

const DAMAGED: usize = 200;

/// The text cut off, or with a byte changed, or without a byte, each at so many places.
pub fn damaged(text: &[u8]) -> impl Iterator<Item = Vec<u8>> {
    let mut dice = Dice::new();
    (0..DAMAGED).flat_map(move |_| {
        let at = dice.below(text.len() as u32) as usize;
        let (mut changed, mut shorter) = (text.to_vec(), text.to_vec());
        changed[at] = b"{}:#/.- 09az\n"[dice.below(13) as usize];
        shorter.remove(at);
        [text[..at].to_vec(), changed, shorter]
    })
}
