//! What is printed of packets and events. The text is put together by hand: `write!` takes four fifths of the time else.

use crate::log::{Event, Item, Place};
use crate::packet::Summary;

const NAMES: [&str; 16] = [
    "",
    "CONNECT",
    "CONNACK",
    "PUBLISH",
    "PUBACK",
    "PUBREC",
    "PUBREL",
    "PUBCOMP",
    "SUBSCRIBE",
    "SUBACK",
    "UNSUBSCRIBE",
    "UNSUBACK",
    "PINGREQ",
    "PINGRESP",
    "DISCONNECT",
    "AUTH",
];
const PUBLISH: u8 = 3;

/// Appends the line of an event.
pub fn put_event(out: &mut Vec<u8>, place: &Place, event: &Event) {
    put_number(out, u64::from(place.position));
    put_field(out, " record ", place.record);
    if let Some(moment) = place.moment {
        put(out, " moment ");
        put_number(out, moment);
    }
    match event {
        Event::Open => put(out, " OPEN"),
        Event::Close => put(out, " CLOSE"),
        Event::Rest => put(out, " REST"),
        Event::Release(identifier) => put_field(out, " RELEASE ", u32::from(*identifier)),
        Event::Sent(item) => put_item(out, " SENT ", item),
        Event::Received(item) => put_item(out, " RECV ", item),
    }
    out.push(b'\n');
}

/// Appends `before` and an item.
pub fn put_item(out: &mut Vec<u8>, before: &str, item: &Item) {
    put(out, before);
    match item {
        Item::Packet(packet) => put_packet(out, packet),
        Item::Bad { rule, at } => {
            put(out, if *rule < 10 { "BAD W0" } else { "BAD W" });
            put_number(out, u64::from(*rule));
            put_field(out, " offset ", *at as u32);
        }
        Item::Lost => put(out, "LOST"),
    }
}

fn put_packet(out: &mut Vec<u8>, packet: &Summary) {
    put(out, NAMES[usize::from(packet.kind())]);
    put_field(out, " size ", packet.size as u32);
    if packet.kind() == PUBLISH {
        put_field(out, " qos ", u32::from(packet.first >> 1 & 3));
        put_field(out, " dup ", u32::from(packet.first >> 3 & 1));
    }
    if let Some(identifier) = packet.identifier {
        put_field(out, " id ", u32::from(identifier));
    }
}

fn put_field(out: &mut Vec<u8>, name: &str, value: u32) {
    put(out, name);
    put_number(out, u64::from(value));
}

fn put(out: &mut Vec<u8>, text: &str) {
    out.extend_from_slice(text.as_bytes());
}

fn put_number(out: &mut Vec<u8>, mut value: u64) {
    let mut digits = [0; 20];
    let mut first = digits.len();
    loop {
        first -= 1;
        digits[first] = b'0' + (value % 10) as u8;
        value /= 10;
        if value == 0 {
            break;
        }
    }
    out.extend_from_slice(&digits[first..]);
}
