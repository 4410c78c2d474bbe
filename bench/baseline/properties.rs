//! Property lists (MQTT 5.0, section 2.2.2).

use crate::cursor::Cursor;
use crate::packet::Fault;

/// Where a property list is: in a packet, by its type, or the Will of a CONNECT.
pub type List = u16;
pub const WILL: List = 1 << 0;
pub const CONNECT: List = 1 << 1;
pub const CONNACK: List = 1 << 2;
pub const PUBLISH: List = 1 << 3;
const SUBSCRIBE: List = 1 << 8;
const SUBACK: List = 1 << 9;
const UNSUBACK: List = 1 << 11;
const DISCONNECT: List = 1 << 14;
const AUTH: List = 1 << 15;
const ACKNOWLEDGEMENTS: List = 1 << 4 | 1 << 5 | 1 << 6 | 1 << 7;
const ALL: List = 0b1100_1111_1111_1111;

#[derive(Clone, Copy)]
enum Kind {
    Byte,
    Flag,
    Two,
    TwoNotZero,
    Four,
    FourNotZero,
    VarintNotZero,
    Text,
    Topic,
    Pair,
    Binary,
}

// Section 2.2.2.2: the type of a property's value and the lists that may have it.
fn property(identifier: u32) -> Option<(Kind, List)> {
    Some(match identifier {
        0x01 => (Kind::Byte, PUBLISH | WILL),
        0x02 => (Kind::Four, PUBLISH | WILL),
        0x03 => (Kind::Text, PUBLISH | WILL),
        0x08 => (Kind::Topic, PUBLISH | WILL),
        0x09 => (Kind::Binary, PUBLISH | WILL),
        0x0B => (Kind::VarintNotZero, PUBLISH | SUBSCRIBE),
        0x11 => (Kind::Four, CONNECT | CONNACK | DISCONNECT),
        0x12 | 0x1A => (Kind::Text, CONNACK),
        0x13 => (Kind::Two, CONNACK),
        0x15 => (Kind::Text, CONNECT | CONNACK | AUTH),
        0x16 => (Kind::Binary, CONNECT | CONNACK | AUTH),
        0x17 | 0x19 => (Kind::Flag, CONNECT),
        0x18 => (Kind::Four, WILL),
        0x1C => (Kind::Text, CONNACK | DISCONNECT),
        0x1F => (
            Kind::Text,
            CONNACK | ACKNOWLEDGEMENTS | SUBACK | UNSUBACK | DISCONNECT | AUTH,
        ),
        0x21 => (Kind::TwoNotZero, CONNECT | CONNACK),
        0x22 => (Kind::Two, CONNECT | CONNACK),
        0x23 => (Kind::TwoNotZero, PUBLISH),
        0x24 | 0x25 | 0x28..=0x2A => (Kind::Flag, CONNACK),
        0x26 => (Kind::Pair, ALL),
        0x27 => (Kind::FourNotZero, CONNECT | CONNACK),
        _ => return None,
    })
}

/// Which properties a list has.
pub struct Properties(u64);

impl Properties {
    pub fn has_topic_alias(&self) -> bool {
        self.0 >> 0x23 & 1 == 1
    }
}

/// Reads the property list at `cursor`, with its length.
pub fn read(cursor: &mut Cursor, list: List) -> Result<Properties, Fault> {
    let start = cursor.at();
    let length = cursor.varint()?;
    let mut part = cursor.part(length as usize, start)?;
    let mut seen = 0_u64;
    while !part.is_at_end() {
        let at = part.at();
        let identifier = part.varint()?;
        let Some((kind, lists)) = property(identifier) else {
            return Err(Fault::broken(10, at));
        };
        if lists & list == 0 {
            return Err(Fault::broken(10, at));
        }
        let may_repeat = identifier == 0x26 || identifier == 0x0B && list == PUBLISH;
        if seen >> identifier & 1 == 1 && !may_repeat {
            return Err(Fault::broken(11, at));
        }
        seen |= 1 << identifier;
        value(&mut part, kind, list)?;
    }
    Ok(Properties(seen))
}

fn value(part: &mut Cursor, kind: Kind, list: List) -> Result<(), Fault> {
    let at = part.at();
    let is_in_range = match kind {
        Kind::Byte => part.u8().map(|_| true)?,
        Kind::Flag => part.u8()? <= 1,
        Kind::Two => part.u16().map(|_| true)?,
        Kind::TwoNotZero => part.u16()? != 0,
        Kind::Four => part.u32().map(|_| true)?,
        Kind::FourNotZero => part.u32()? != 0,
        Kind::VarintNotZero => part.varint()? != 0,
        Kind::Text => part.text().map(|_| true)?,
        Kind::Binary => part.binary().map(|_| true)?,
        Kind::Pair => part.pair().map(|_| true)?,
        Kind::Topic => {
            if part.text()?.contains(['#', '+']) && list == PUBLISH {
                return Err(Fault::broken(14, at));
            }
            true
        }
    };
    if is_in_range {
        Ok(())
    } else {
        Err(Fault::broken(12, at))
    }
}
