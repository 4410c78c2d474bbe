use crate::log::{Log, Stop};
use crate::{answer_many, describe, from_hex, Show};
use std::panic::catch_unwind;

const HEADER: &str = "4D51545201000100";
const OPEN: &str = "0100000000";
const CLOSE: &str = "0400000000";
const REST: &str = "0500000000";
const CONNECT: &str = "100D00044D5154540502003C000000";
const CONNACK: &str = "2003000000";
const PUBLISH: &str = "320700016100010078";

fn bytes(hex: &str) -> Vec<u8> {
    from_hex(&hex.replace(' ', "")).expect("hex digits")
}

fn record(kind: u8, body: &str) -> String {
    let body = body.replace(' ', "");
    format!("{kind:02X}{:08X}{body}", body.len() / 2)
}

fn sent(body: &str) -> String {
    record(2, body)
}

fn received(body: &str) -> String {
    record(3, body)
}

// A client's connection with so many packets before its CONNACK, beside the CONNECT.
fn undecided(packets: usize) -> String {
    [
        OPEN.into(),
        sent(CONNECT),
        sent(&"30050001610078".repeat(packets)),
    ]
    .concat()
}

// A client's log in which the connection was accepted, and then `records`.
fn accepted(records: &[String]) -> Vec<u8> {
    let start = [HEADER.into(), OPEN.into(), sent(CONNECT), received(CONNACK)];
    bytes(&(start.concat() + &records.concat()))
}

// What is shown of a log that is fed in pieces of `size` bytes.
fn shown(log: &[u8], size: usize) -> String {
    let mut reader = Log::new(Show {
        output: Vec::new(),
        text: Vec::new(),
    });
    let fed = log.chunks(size).try_for_each(|piece| reader.feed(piece));
    let stop = fed.and_then(|()| reader.finish());
    let mut show = reader.into_sink();
    show.flush().expect("a vector takes all");
    let text = String::from_utf8(show.output).expect("text");
    match stop {
        Ok(()) => text,
        Err(Stop::Refused(refusal)) => format!("{text}{refusal}\n"),
        Err(Stop::Write) => panic!("a vector takes all"),
    }
}

// The last line of what is shown of a log, which doesn't depend on the pieces.
fn last_line(log: &[u8]) -> String {
    let text = shown(log, usize::MAX);
    for size in [1, 2, 3, 7, 37] {
        assert_eq!(shown(log, size), text);
    }
    text.lines().last().unwrap_or_default().into()
}

#[test]
fn tells_what_a_packet_is() {
    for (hex, text) in [
        ("", "need more bytes"),
        ("4002", "need more bytes"),
        ("30 FF FF FF 7F", "need more bytes"),
        ("D0 00 00", "left over 1 bytes"),
        ("40 02 00 00 D0 00", "left over 2 bytes"),
        ("30 FF FF FF FF", "LOST"),
        ("30 80 00", "LOST"),
        (
            "10 0C 00 04 4D 51 54 54 04 02 00 3C 00 00",
            "other version 4",
        ),
        (CONNECT, "CONNECT size 15"),
        (CONNACK, "CONNACK size 5"),
        (PUBLISH, "PUBLISH size 9 qos 1 dup 0 id 1"),
        (
            "3D 07 00 01 61 FF FF 00 78",
            "PUBLISH size 9 qos 2 dup 1 id 65535",
        ),
        ("30 05 00 01 61 00 78", "PUBLISH size 7 qos 0 dup 0"),
        ("40020001", "PUBACK size 4 id 1"),
        ("40 03 00 01 10", "PUBACK size 5 id 1"),
        ("62 04 00 01 92 00", "PUBREL size 6 id 1"),
        ("82 07 00 01 00 00 01 61 01", "SUBSCRIBE size 9 id 1"),
        ("90 04 00 01 00 87", "SUBACK size 6 id 1"),
        ("90 03 00 01 00", "SUBACK size 5 id 1"),
        ("E0 00", "DISCONNECT size 2"),
        ("E0 02 00 00", "DISCONNECT size 4"),
        ("F0 01 18", "AUTH size 3"),
        ("D0 00", "PINGRESP size 2"),
    ] {
        assert_eq!(describe(&bytes(hex)).0, text, "{hex}");
    }
}

#[test]
fn names_the_rule_and_its_place() {
    for (hex, text) in [
        ("41 02 00 01", "W01 offset 0"),
        ("00 00", "W02 offset 0"),
        ("30 06 00 01 61 80 00 78", "W03 offset 5"),
        ("30 04 00 01 FF 00", "W04 offset 2"),
        ("30 04 00 01 00 00", "W05 offset 2"),
        ("C0 01 00", "W06 offset 2"),
        ("30 07 00 01 61 FF FF FF 7F", "W06 offset 5"),
        ("40 01 00", "W06 offset 2"),
        ("36 07 00 01 61 00 01 00 78", "W07 offset 0"),
        ("38 05 00 01 61 00 78", "W08 offset 0"),
        ("32 07 00 01 61 00 00 00 78", "W09 offset 5"),
        ("40020000", "W09 offset 2"),
        ("30 08 00 01 61 03 21 00 01 78", "W10 offset 6"),
        ("30 09 00 01 61 04 01 00 01 00 78", "W11 offset 8"),
        ("82 0B 00 01 04 0B 01 0B 01 00 01 61 01", "W11 offset 7"),
        ("30 08 00 01 61 03 23 00 00 78", "W12 offset 7"),
        ("40 03 00 01 01", "W13 offset 4"),
        ("30 04 00 01 23 00", "W14 offset 2"),
        ("30 08 00 01 61 04 08 00 01 2B", "W14 offset 7"),
        ("82 08 00 01 00 00 02 61 23 00", "W15 offset 5"),
        ("82 03 00 01 00", "W16 offset 5"),
        ("82 07 00 01 00 00 01 61 03", "W17 offset 8"),
        (
            "10 0D 00 04 4D 51 54 58 05 02 00 3C 00 00 00",
            "W18 offset 2",
        ),
        (
            "10 0D 00 04 4D 51 54 54 05 03 00 3C 00 00 00",
            "W19 offset 9",
        ),
        ("20 03 02 00 00", "W20 offset 2"),
        ("30 04 00 00 00 78", "W21 offset 4"),
    ] {
        assert_eq!(describe(&bytes(hex)), (format!("BAD {text}"), 1), "{hex}");
    }
}

#[test]
fn shows_a_log() {
    let log = accepted(&[
        sent(PUBLISH),
        received("40020001"),
        REST.into(),
        CLOSE.into(),
    ]);
    assert_eq!(log.len(), 76);
    let text = "1 record 1 OPEN\n2 record 2 SENT CONNECT size 15\n3 record 3 RECV CONNACK size 5\n\
        4 record 4 SENT PUBLISH size 9 qos 1 dup 0 id 1\n5 record 5 RECV PUBACK size 4 id 1\n\
        6 record 6 REST\n7 record 7 CLOSE\n";
    assert_eq!(shown(&log, usize::MAX), text);
    assert_eq!(last_line(&log), "7 record 7 CLOSE");
    for end in 0..log.len() {
        let whole = [8, 13, 33, 43, 57, 66, 71]
            .iter()
            .position(|&place| place == end);
        let text = shown(&log[..end], usize::MAX);
        match whole {
            Some(events) => assert_eq!(text.lines().count(), events),
            None => assert_eq!(
                text.lines().last(),
                Some(&*format!("refused 10 Cut at {end}"))
            ),
        }
    }
}

#[test]
fn refuses_at_the_first_byte_that_shows_it() {
    let open = [HEADER, OPEN].concat();
    let accepted_once = [
        open.clone(),
        sent(CONNECT),
        received(CONNACK),
        sent(PUBLISH),
        CLOSE.into(),
    ]
    .concat();
    for (hex, text) in [
        ("00".to_string(), "1 Header at 0"),
        ("4D51545203".into(), "2 Version at 4"),
        ("4D5154520102".into(), "3 Role at 5"),
        ("4D51545201000200".into(), "4 Flags at 6"),
        ("4D51545201000101".into(), "4 Flags at 7"),
        (HEADER.to_string() + "07", "5 Kind at 8"),
        (open.clone() + "0200100001", "6 Length at 17"),
        (open.clone() + OPEN, "7 Nested at 13"),
        (HEADER.to_string() + REST, "8 NotOpen at 8"),
        ("4D5154520100000006".into(), "9 ReleaseUnrecorded at 8"),
        ("4D515452010001".into(), "10 Cut at 7"),
        ("".into(), "10 Cut at 0"),
        (
            [
                open.clone(),
                sent(CONNECT),
                received(CONNACK),
                sent("30FFFFFF7F"),
            ]
            .concat(),
            "11 TooLarge at 52",
        ),
        (
            open.clone() + &sent("100C00044D51545404020 03C0000"),
            "12 OtherVersion at 31",
        ),
        (
            HEADER.to_string() + &undecided(4_095),
            "13 TooManyEarly at 28702",
        ),
        (
            HEADER.to_string() + &undecided(4_094) + REST,
            "13 TooManyEarly at 28700",
        ),
        (
            accepted_once + &undecided(4_094) + &record(6, "0001"),
            "13 TooManyEarly at 28756",
        ),
    ] {
        assert_eq!(last_line(&bytes(&hex)), format!("refused {text}"), "{hex}");
    }
}

#[test]
fn reads_version_2() {
    let opened = "4D51545202000100 01 00000000 0000000000000000";
    let whole = bytes(&format!(
        "{opened} 02 0000000F 000640E1F8E7D6C5 {CONNECT} 06 00000002 FFFFFFFFFFFFFFFF 0102 04 00000000 0000000000000001"
    ));
    let lines = "1 record 1 moment 0 OPEN\n\
        2 record 2 moment 1760189148026565 SENT CONNECT size 15\n\
        3 record 3 moment 18446744073709551615 RELEASE 258\n\
        4 record 4 moment 1 CLOSE\n";
    for size in [1, 2, 3, 7, 37, usize::MAX] {
        assert_eq!(shown(&whole, size), lines);
    }
    // It may end after the header and after each record: elsewhere it is cut.
    for size in 0..whole.len() {
        let text = shown(&whole[..size], usize::MAX);
        let is_cut = text.ends_with(&format!("refused 10 Cut at {size}\n"));
        assert_eq!(is_cut, ![8, 21, 49, 64].contains(&size), "{size}");
    }
    for (records, text) in [
        ("02 01000000", "10 Cut at 26"),
        ("02 01000001", "6 Length at 25"),
        ("04 00000001", "6 Length at 25"),
        ("01", "7 Nested at 21"),
    ] {
        let log = bytes(&format!("{opened} {records}"));
        assert_eq!(last_line(&log), format!("refused {text}"), "{records}");
    }
}

#[test]
fn shows_what_comes_before_the_connack() {
    for (records, line) in [
        (undecided(1), "3 record 3 SENT PUBLISH size 7 qos 0 dup 0"),
        (
            OPEN.to_string() + &record(6, "0001"),
            "2 record 2 RELEASE 1",
        ),
        (
            undecided(4_094) + &received(CONNACK),
            "4097 record 4 RECV CONNACK size 5",
        ),
        (undecided(4_094) + CLOSE, "4097 record 4 CLOSE"),
        (
            undecided(4_094) + CLOSE + &record(6, "0001") + &undecided(4_094),
            "8194 record 8 SENT PUBLISH size 7 qos 0 dup 0",
        ),
    ] {
        assert_eq!(last_line(&bytes(&(HEADER.to_string() + &records))), line);
    }
}

#[test]
fn finds_packets_that_are_cut_or_lost() {
    let mut records: Vec<String> = "32 07 00 01 61 00 00 00".split(' ').map(sent).collect();
    records.extend([received("D000"), sent("78")]);
    assert_eq!(
        last_line(&accepted(&records)),
        "5 record 13 SENT BAD W09 offset 5"
    );
    let lost = [
        sent("30FFFFFFFF"),
        sent(PUBLISH),
        received(PUBLISH),
        CLOSE.into(),
        OPEN.into(),
        sent("C000"),
    ];
    let text = shown(&accepted(&lost), 5);
    assert!(text.ends_with(
        "\n4 record 4 SENT LOST\n5 record 6 RECV PUBLISH size 9 qos 1 dup 0 id 1\n6 record 7 CLOSE\n\
        7 record 8 OPEN\n8 record 9 SENT PINGREQ size 2\n"
    ));
    assert_eq!(
        last_line(&accepted(&[CLOSE.into(), record(6, "0102")])),
        "5 record 5 RELEASE 258"
    );
}

// Numbers that look drawn by lot, and are the same each time.
struct Draws(u32);

impl Draws {
    fn below(&mut self, bound: usize) -> usize {
        self.0 = self.0.wrapping_mul(1_664_525).wrapping_add(1_013_904_223);
        (self.0 >> 8) as usize % bound
    }

    fn byte(&mut self) -> u8 {
        const TELLING: [u8; 12] = [0, 1, 2, 4, 5, 0x23, 0x26, 0x2B, 0x7F, 0x80, 0xC3, 0xFF];
        match self.below(2) {
            0 => TELLING[self.below(TELLING.len())],
            _ => self.below(256) as u8,
        }
    }

    fn change(&mut self, bytes: &mut Vec<u8>) {
        let at = self.below(bytes.len() + 1);
        match self.below(4) {
            0 => bytes.truncate(at),
            1 => bytes.insert(at, self.byte()),
            2 if at < bytes.len() => drop(bytes.remove(at)),
            _ if at < bytes.len() => bytes[at] = self.byte(),
            _ => {}
        }
    }
}

// Valid packets, of all types.
fn packets() -> Vec<Vec<u8>> {
    let lines = include_str!("../packets.txt").lines();
    lines
        .filter(|line| !line.starts_with('#'))
        .map(bytes)
        .collect()
}

#[test]
fn stays_whole_on_changed_packets() {
    let packets = packets();
    for packet in &packets {
        assert_eq!(describe(packet).1, 0, "{packet:02X?}");
    }
    let mut draws = Draws(1);
    let mut valid = 0;
    for round in 0..200_000 {
        let mut packet = packets[round % packets.len()].clone();
        for _ in 0..draws.below(4) {
            draws.change(&mut packet);
        }
        // Else most of them would only be too short or too long.
        if packet.len() >= 2 && packet.len() < 130 && draws.below(4) > 0 {
            packet[1] = packet.len() as u8 - 2;
        }
        let said = catch_unwind(|| describe(&packet)).unwrap_or_else(|_| panic!("{packet:02X?}"));
        valid += usize::from(said.1 == 0);
    }
    assert!(valid > 60_000, "only {valid} are valid");
}

// A log of version 1 in version 2, with any moments.
fn in_version_2(log: &[u8], draws: &mut Draws) -> Vec<u8> {
    let mut out = [&log[..4], &[2], &log[5..8]].concat();
    let mut rest = &log[8..];
    while !rest.is_empty() {
        let size = 5 + u32::from_be_bytes([rest[1], rest[2], rest[3], rest[4]]) as usize;
        out.extend(&rest[..5]);
        out.extend((0..8).map(|_| draws.byte()));
        out.extend(&rest[5..size]);
        rest = &rest[size..];
    }
    out
}

#[test]
fn shows_the_same_in_any_pieces() {
    let mut draws = Draws(2);
    let mut log = accepted(&[]);
    for (n, packet) in packets().iter().enumerate() {
        log.extend([2 + (n % 2) as u8, 0, 0, 0, packet.len() as u8]);
        log.extend(packet);
    }
    for round in 0..6_000 {
        let mut log = log.clone();
        if round % 2 == 1 {
            log = in_version_2(&log, &mut draws);
        }
        for _ in 0..draws.below(4) {
            draws.change(&mut log);
        }
        let text = shown(&log, usize::MAX);
        for size in [1, 5, 64] {
            assert_eq!(shown(&log, size), text, "{log:02X?}");
        }
    }
}

fn request(task: u8, data: &[u8]) -> Vec<u8> {
    [&[task], &(data.len() as u32).to_be_bytes()[..], data].concat()
}

fn said(status: u8, text: &str) -> Vec<u8> {
    request(status, text.as_bytes())
}

#[test]
fn answers_many_requests() {
    let header = bytes(HEADER);
    let requests = [
        request(b'p', &bytes("40020001")),
        request(b'l', &accepted(&[])),
        request(b'p', &[]),
        request(b'l', &header),
        request(b'l', &header[..3]),
    ];
    let answers = [
        said(0, "PUBACK size 4 id 1\n"),
        said(
            0,
            "1 record 1 OPEN\n2 record 2 SENT CONNECT size 15\n3 record 3 RECV CONNACK size 5\n",
        ),
        said(1, "need more bytes\n"),
        said(0, ""),
        said(2, "refused 10 Cut at 3\n"),
    ];
    let mut output = Vec::new();
    answer_many(&requests.concat()[..], &mut output).expect("whole requests");
    assert_eq!(output, answers.concat());
    // One that isn't whole has no answer.
    output.clear();
    assert!(answer_many(&requests[0][..7], &mut output).is_err());
    assert!(output.is_empty());
}
