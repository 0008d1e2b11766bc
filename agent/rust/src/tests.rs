//! Each value is held against one that stands here, derived by hand from docs/FORMAT.md.
#![forbid(unsafe_code)]

use super::*;
use std::thread;

/// 10.7.3.9 and 10.7.0.0.
const SERVER: u32 = 168_231_689;
const STUDIO: u32 = 168_230_912;

/// The rows of examples/tenant.policy (docs/FORMAT.md, "A file, word by word").
const RESERVED: [u32; 11] = [0, 0, SERVER, 0, 0, 0, 0, 32, 0, 3, 40000];
const DENIED: [u32; 11] = [0, 0, STUDIO, 0, 0, 0, 0, 16, 0, 2, 0];

fn bytes(rows: &[[u32; 11]]) -> Vec<u8> {
    rows.iter()
        .flatten()
        .flat_map(|word| word.to_le_bytes())
        .collect()
}

fn tenant() -> Vec<u8> {
    bytes(&[RESERVED, DENIED, RESERVED])
}

fn packet_to(a: u8, b: u8, c: u8, d: u8) -> Packet {
    Packet {
        in_port: 1,
        source: Ipv4Addr::new(10, 0, 0, 1),
        destination: Ipv4Addr::new(a, b, c, d),
        protocol: 6,
        source_port: 50000,
        destination_port: 443,
    }
}

fn found(action: Action, tried: usize) -> Result<Decision, Refusal> {
    Ok(Decision { action, tried })
}

#[test]
fn a_packet_in_bytes() {
    let packet = Packet {
        in_port: 0x0102,
        source: Ipv4Addr::new(1, 2, 3, 4),
        destination: Ipv4Addr::new(5, 6, 7, 8),
        protocol: 9,
        source_port: 0x0a0b,
        destination_port: 0x0c0d,
    };
    assert_eq!(
        packet.to_bytes(),
        [2, 1, 0, 0, 4, 3, 2, 1, 8, 7, 6, 5, 9, 0, 0, 0, 0x0b, 0x0a, 0, 0, 0x0d, 0x0c, 0, 0]
    );
}

#[test]
fn the_tenant_is_scanned() {
    let table = tenant();
    let reserved = Action::Reserve { kbits: 40000 };
    assert_eq!(
        scan(&table, &packet_to(10, 7, 3, 9).to_bytes()),
        found(reserved, 1)
    );
    assert_eq!(
        scan(&table, &packet_to(10, 7, 3, 10).to_bytes()),
        found(Action::Deny, 2)
    );
    assert_eq!(
        scan(&table, &packet_to(10, 8, 0, 1).to_bytes()),
        found(Action::DontCare, 3)
    );
    assert_eq!(
        scan(&[], &packet_to(10, 8, 0, 1).to_bytes()),
        found(Action::DontCare, 0)
    );
}

#[test]
fn an_allowance() {
    let table = bytes(&[[0, 0, 0, 6, 0, 443, 0, 0, 10, 1, 0]]);
    assert_eq!(
        scan(&table, &packet_to(10, 8, 0, 1).to_bytes()),
        found(Action::Allow, 1)
    );
}

#[test]
fn actions_from_words() {
    for (kind, rate, action) in [
        (0, 0, Some(Action::DontCare)),
        (1, 0, Some(Action::Allow)),
        (2, 0, Some(Action::Deny)),
        (3, 1, Some(Action::Reserve { kbits: 1 })),
        (3, 100_000_000, Some(Action::Reserve { kbits: 100_000_000 })),
        (3, 100_000_001, None),
        (3, 0, None),
        (0, 5, None),
        (1, 5, None),
        (2, 5, None),
        (4, 0, None),
    ] {
        assert_eq!(Action::from_words(kind, rate), action);
    }
}

#[test]
fn an_odd_address() {
    let mut held = vec![0xa5];
    held.extend(tenant());
    assert_eq!(
        scan(&held[1..], &packet_to(10, 7, 3, 10).to_bytes()),
        found(Action::Deny, 2)
    );
}

#[test]
fn the_tenant_is_numbered() {
    let (mut priorities, mut chain) = ([0xa5; 20], [0xa5; 16]);
    assert_eq!(number(&tenant(), &mut priorities, &mut chain), Ok(3));
    assert!(words(&priorities).eq([3, 2, 1, 0xa5a5_a5a5, 0xa5a5_a5a5]));
    assert!(words(&chain).eq([0, 1, 2, 0xa5a5_a5a5]));
    assert_eq!(number(&[], &mut [], &mut []), Ok(0));
}

#[test]
fn wrong_packets() {
    let mut packet = packet_to(10, 7, 3, 9).to_bytes();
    packet[13] = 1;
    assert_eq!(scan(&tenant(), &packet), Err(Refusal::WrongPacket));
    assert_eq!(scan(&tenant()[..40], &packet), Err(Refusal::WrongPacket));
}

#[test]
fn wrong_tables() {
    let packet = packet_to(10, 7, 3, 9).to_bytes();
    let (mut priorities, mut chain) = ([0; MOST_BUFFER_BYTES], [0; MOST_BUFFER_BYTES]);
    let mut wrong = tenant();
    wrong[44 + 36] = 4;
    let longest = vec![0; ROW_BYTES * MOST_ROWS];
    let longer = vec![0; ROW_BYTES * (MOST_ROWS + 1)];
    for (table, refusal) in [
        (&tenant()[..40], Refusal::WrongTable),
        (&longer, Refusal::WrongTable),
        (&wrong, Refusal::WrongRow { place: 1 }),
        (&tenant()[..43], Refusal::WrongLength),
    ] {
        assert_eq!(scan(table, &packet), Err(refusal));
        assert_eq!(number(table, &mut priorities, &mut chain), Err(refusal));
        assert!(priorities.iter().chain(&chain).all(|&byte| byte == 0));
    }
    assert_eq!(scan(&longest, &packet), found(Action::DontCare, 1));
    assert_eq!(number(&longest, &mut priorities, &mut chain), Ok(4096));
    assert!(words(&priorities).eq((1..=4096).rev()));
    assert!(words(&chain).eq(0..4096));
}

#[test]
fn short_buffers() {
    for (priority_bytes, chain_bytes, refusal) in [
        (8, 12, Refusal::ShortBuffer),
        (12, 8, Refusal::ShortBuffer),
        (0, 0, Refusal::ShortBuffer),
        (13, 12, Refusal::WrongLength),
        (12, 14, Refusal::WrongLength),
        (8, 15, Refusal::WrongLength),
    ] {
        let (mut priorities, mut chain) = (vec![0xa5; priority_bytes], vec![0xa5; chain_bytes]);
        assert_eq!(number(&tenant(), &mut priorities, &mut chain), Err(refusal));
        assert!(priorities.iter().chain(&chain).all(|&byte| byte == 0xa5));
    }
}

#[test]
fn refusals_in_words() {
    for (refusal, number, place) in [
        (Refusal::WrongPacket, 11, 0),
        (Refusal::WrongTable, 15, 0),
        (Refusal::WrongRow { place: 7 }, 16, 7),
        (Refusal::ShortBuffer, 17, 0),
        (Refusal::WrongLength, 21, 0),
    ] {
        assert_eq!((refusal.number(), refusal.place()), (number, place));
    }
    assert_eq!(
        Refusal::WrongRow { place: 7 }.to_string(),
        "refused 16 7: row 7: the row has a wrong match, one that no packet can meet, or a wrong action; lend the \
         table as the compile wrote it, of each word the lowest byte first"
    );
}

#[test]
fn threads_at_once() {
    let table = tenant();
    thread::scope(|scope| {
        for last in 0..8 {
            let table = &table;
            scope.spawn(move || {
                let packet = packet_to(10, 7, 3, 7 + last).to_bytes();
                for _ in 0..2000 {
                    let (mut priorities, mut chain) = ([0; 12], [0; 12]);
                    assert_eq!(number(table, &mut priorities, &mut chain), Ok(3));
                    assert!(words(&priorities).eq([3, 2, 1]));
                    assert!(words(&chain).eq([0, 1, 2]));
                    match last {
                        2 => assert_eq!(
                            scan(table, &packet),
                            found(Action::Reserve { kbits: 40000 }, 1)
                        ),
                        _ => assert_eq!(scan(table, &packet), found(Action::Deny, 2)),
                    }
                }
            });
        }
    });
}
