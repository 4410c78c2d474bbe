//! The fifteen Control Packets (MQTT 5.0, section 3), checked field by field.

use crate::cursor::{varint, Cursor, Varint};
use crate::properties::{self, WILL};

/// Why some bytes are no packet.
#[derive(Debug, PartialEq)]
pub enum Fault {
    Broken { rule: u8, at: usize },
    OtherVersion(u8),
}

impl Fault {
    pub fn broken(rule: u8, at: usize) -> Fault {
        Fault::Broken { rule, at }
    }

    pub fn moved_to(self, place: usize) -> Fault {
        match self {
            Fault::Broken { rule, .. } => Fault::Broken { rule, at: place },
            other => other,
        }
    }
}

/// What the front of a stream holds.
pub enum Front {
    Need,
    Lost { length: usize },
    Header { body: usize, size: usize },
}

/// Reads the fixed header at the front of `bytes` (section 2.1).
pub fn front(bytes: &[u8]) -> Front {
    let Some((_, rest)) = bytes.split_first() else {
        return Front::Need;
    };
    match varint(rest) {
        Varint::Short => Front::Need,
        // The first byte without bit 7, or else the fourth one, shows it.
        Varint::Overlong => {
            let continued = rest
                .iter()
                .take(3)
                .take_while(|&&byte| byte & 0x80 != 0)
                .count();
            Front::Lost {
                length: 2 + continued,
            }
        }
        Varint::Value { value, length } => Front::Header {
            body: 1 + length,
            size: 1 + length + value as usize,
        },
    }
}

pub const CONNACK: u8 = 2;

/// What is printed of a packet.
#[derive(Debug)]
pub struct Summary {
    pub first: u8,
    pub size: usize,
    pub identifier: Option<u16>,
}

impl Summary {
    pub fn kind(&self) -> u8 {
        self.first >> 4
    }
}

/// Decodes a whole packet, whose body begins at `body`. The first check that fails decides.
pub fn decode(packet: &[u8], body: usize) -> Result<Summary, Fault> {
    let first = packet[0];
    check_flags(first)?;
    let mut cursor = Cursor::new(packet, body);
    let identifier = read_body(first, packet.len() - body, &mut cursor)?;
    if !cursor.is_at_end() {
        return Err(Fault::broken(6, cursor.at()));
    }
    Ok(Summary {
        first,
        size: packet.len(),
        identifier,
    })
}

fn check_flags(first: u8) -> Result<(), Fault> {
    let flags = first & 0x0F;
    let rule = match first >> 4 {
        0 => 2,
        3 if flags & 0b0110 == 0b0110 => 7,
        3 if flags & 0b1110 == 0b1000 => 8,
        3 => return Ok(()),
        6 | 8 | 10 if flags == 0b0010 => return Ok(()),
        6 | 8 | 10 => 1,
        _ if flags == 0 => return Ok(()),
        _ => 1,
    };
    Err(Fault::broken(rule, 0))
}

// Reads the body up to where bytes may be left over; gives the Packet Identifier of a packet that has one.
fn read_body(first: u8, length: usize, cursor: &mut Cursor) -> Result<Option<u16>, Fault> {
    let kind = first >> 4;
    match kind {
        1 => connect(cursor).map(|()| None),
        2 => connack(cursor).map(|()| None),
        3 => publish(first, cursor),
        4..=7 => {
            let identifier = identifier(cursor)?;
            reason(kind, length, 2, cursor)?;
            Ok(Some(identifier))
        }
        8..=11 => {
            let identifier = identifier(cursor)?;
            properties::read(cursor, 1 << kind)?;
            match kind {
                8 | 10 => filters(cursor, kind == 8)?,
                _ => reason_codes(kind, cursor)?,
            }
            Ok(Some(identifier))
        }
        14 | 15 => reason(kind, length, 0, cursor).map(|()| None),
        _ => Ok(None),
    }
}

fn identifier(cursor: &mut Cursor) -> Result<u16, Fault> {
    let at = cursor.at();
    match cursor.u16()? {
        0 => Err(Fault::broken(9, at)),
        identifier => Ok(identifier),
    }
}

fn connect(cursor: &mut Cursor) -> Result<(), Fault> {
    let at = cursor.at();
    if cursor.text()? != "MQTT" {
        return Err(Fault::broken(18, at));
    }
    let version = cursor.u8()?;
    if version != 5 {
        return Err(Fault::OtherVersion(version));
    }
    let at = cursor.at();
    let flags = cursor.u8()?;
    let has_will = flags & 0x04 != 0;
    if flags & 0x01 != 0 || flags & 0x18 == 0x18 || !has_will && flags & 0x38 != 0 {
        return Err(Fault::broken(19, at));
    }
    cursor.u16()?;
    properties::read(cursor, properties::CONNECT)?;
    cursor.text()?;
    if has_will {
        properties::read(cursor, WILL)?;
        cursor.text()?;
        cursor.binary()?;
    }
    if flags & 0x80 != 0 {
        cursor.text()?;
    }
    if flags & 0x40 != 0 {
        cursor.binary()?;
    }
    Ok(())
}

fn connack(cursor: &mut Cursor) -> Result<(), Fault> {
    let at = cursor.at();
    if cursor.u8()? & 0xFE != 0 {
        return Err(Fault::broken(20, at));
    }
    reason_code(CONNACK, cursor)?;
    properties::read(cursor, properties::CONNACK)?;
    Ok(())
}

fn publish(first: u8, cursor: &mut Cursor) -> Result<Option<u16>, Fault> {
    let at = cursor.at();
    let topic = cursor.text()?;
    if topic.contains(['#', '+']) {
        return Err(Fault::broken(14, at));
    }
    let identifier = match first & 0x06 {
        0 => None,
        _ => Some(identifier(cursor)?),
    };
    let at = cursor.at();
    let properties = properties::read(cursor, properties::PUBLISH)?;
    if topic.is_empty() && !properties.has_topic_alias() {
        return Err(Fault::broken(21, at));
    }
    cursor.skip_rest();
    Ok(identifier)
}

// A Reason Code and properties, each of which may be left out at the end of a body with `before` bytes before them.
fn reason(kind: u8, length: usize, before: usize, cursor: &mut Cursor) -> Result<(), Fault> {
    if length > before {
        reason_code(kind, cursor)?;
    }
    if length > before + 1 {
        properties::read(cursor, 1 << kind)?;
    }
    Ok(())
}

fn reason_code(kind: u8, cursor: &mut Cursor) -> Result<(), Fault> {
    let at = cursor.at();
    if has_reason_code(kind, cursor.u8()?) {
        Ok(())
    } else {
        Err(Fault::broken(13, at))
    }
}

fn reason_codes(kind: u8, cursor: &mut Cursor) -> Result<(), Fault> {
    while !cursor.is_at_end() {
        reason_code(kind, cursor)?;
    }
    Ok(())
}

// Section 2.4, and the tables of each packet.
fn has_reason_code(kind: u8, code: u8) -> bool {
    match kind {
        CONNACK => matches!(code, 0 | 0x80..=0x8A | 0x8C | 0x90 | 0x95 | 0x97 | 0x99..=0x9D | 0x9F),
        4 | 5 => matches!(
            code,
            0 | 0x10 | 0x80 | 0x83 | 0x87 | 0x90 | 0x91 | 0x97 | 0x99
        ),
        6 | 7 => matches!(code, 0 | 0x92),
        9 => matches!(
            code,
            0..=2 | 0x80 | 0x83 | 0x87 | 0x8F | 0x91 | 0x97 | 0x9E | 0xA1 | 0xA2
        ),
        11 => matches!(code, 0 | 0x11 | 0x80 | 0x83 | 0x87 | 0x8F | 0x91),
        14 => matches!(code, 0 | 4 | 0x80..=0x83 | 0x87 | 0x89 | 0x8B..=0x90 | 0x93..=0xA2),
        _ => matches!(code, 0 | 0x18 | 0x19),
    }
}

fn filters(cursor: &mut Cursor, have_options: bool) -> Result<(), Fault> {
    if cursor.is_at_end() {
        return Err(Fault::broken(16, cursor.at()));
    }
    while !cursor.is_at_end() {
        let at = cursor.at();
        if !is_filter(cursor.text()?) {
            return Err(Fault::broken(15, at));
        }
        if have_options {
            let at = cursor.at();
            let options = cursor.u8()?;
            if options & 0x03 == 0x03 || options & 0x30 == 0x30 || options & 0xC0 != 0 {
                return Err(Fault::broken(17, at));
            }
        }
    }
    Ok(())
}

// Section 4.7: a wildcard fills its level, and `#` only the last one.
fn is_filter(filter: &str) -> bool {
    let mut levels = filter.split('/').peekable();
    while let Some(level) = levels.next() {
        let is_right = match level {
            "#" => levels.peek().is_none(),
            "+" => true,
            _ => !level.contains(['#', '+']),
        };
        if !is_right {
            return false;
        }
    }
    !filter.is_empty()
}
