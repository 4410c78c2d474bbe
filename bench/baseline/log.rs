//! The log of one end of a session, of both versions: its records, and the packets of each direction.

use crate::packet::{self, Fault, Front, Summary};
use std::fmt::{self, Display, Formatter};
use std::io;

const MAGIC: [u8; 4] = *b"MQTR";
const HEADER_SIZE: u64 = 8;
const LARGEST_BODY: u32 = 1_048_576; // in version 1
const LARGEST_TIMED_BODY: u32 = 16_777_216; // in version 2
const LENGTH_SIZE: u8 = 4;
const MOMENT_SIZE: u8 = 8;
const LARGEST_PACKET: usize = 16_777_216;
const MOST_EARLY: u32 = 4_096;

/// Why a log is refused, and the offset of the byte that shows it.
#[derive(Debug, Clone, Copy, PartialEq)]
pub struct Refusal {
    pub number: u8,
    pub byte: u64,
}

impl Display for Refusal {
    fn fmt(&self, out: &mut Formatter) -> fmt::Result {
        const NAMES: [&str; 15] = [
            "",
            "Header",
            "Version",
            "Role",
            "Flags",
            "Kind",
            "Length",
            "Nested",
            "NotOpen",
            "ReleaseUnrecorded",
            "Cut",
            "TooLarge",
            "OtherVersion",
            "TooManyEarly",
            "TooLong",
        ];
        write!(
            out,
            "refused {} {} at {}",
            self.number,
            NAMES[usize::from(self.number)],
            self.byte
        )
    }
}

/// Why reading a log stopped.
#[derive(Debug)]
pub enum Stop {
    Refused(Refusal),
    Write,
}

impl From<io::Error> for Stop {
    fn from(_: io::Error) -> Stop {
        Stop::Write
    }
}

fn refuse(number: u8, byte: u64) -> Result<(), Stop> {
    Err(Stop::Refused(Refusal { number, byte }))
}

/// What a stream of packets has at one place.
pub enum Item {
    Packet(Summary),
    Bad { rule: u8, at: usize },
    Lost,
}

pub enum Event {
    Open,
    Close,
    Rest,
    Release(u16),
    Sent(Item),
    Received(Item),
}

/// Where an event stands: its position, its record, and in version 2 that record's moment.
pub struct Place {
    pub position: u32,
    pub record: u32,
    pub moment: Option<u64>,
}

/// Takes the events of a log in their order.
pub trait Sink {
    fn event(&mut self, place: &Place, event: &Event) -> io::Result<()>;
}

#[derive(Clone, Copy, PartialEq)]
enum Kind {
    Open = 1,
    Sent,
    Received,
    Close,
    Rest,
    Release,
}

enum State {
    Header,
    Kind,
    Length {
        kind: Kind,
        have: u8,
        value: u32,
    },
    Moment {
        kind: Kind,
        length: u32,
        have: u8,
        value: u64,
    },
    Body {
        kind: Kind,
        left: u32,
        value: u16,
    },
}

// One direction of a connection: its unfinished packet, that packet's size once it is known, and whether it was lost.
#[derive(Default)]
struct Direction {
    pending: Vec<u8>,
    size: Option<usize>,
    is_lost: bool,
}

impl Direction {
    fn forget(&mut self) {
        self.pending.clear();
        self.size = None;
        self.is_lost = false;
    }
}

/// Reads a log piece by piece.
pub struct Log<S> {
    sink: S,
    state: State,
    offset: u64,
    has_moments: bool,
    moment: Option<u64>, // of the record that is being read
    is_server: bool,
    has_releases: bool,
    is_open: bool,
    has_connack: bool,
    early: u32, // events of the open connection before its CONNACK
    records: u32,
    events: u32,
    sent: Direction,
    received: Direction,
}

impl<S: Sink> Log<S> {
    pub fn new(sink: S) -> Self {
        Log {
            sink,
            state: State::Header,
            offset: 0,
            has_moments: false,
            moment: None,
            is_server: false,
            has_releases: false,
            is_open: false,
            has_connack: false,
            early: 0,
            records: 0,
            events: 0,
            sent: Direction::default(),
            received: Direction::default(),
        }
    }

    pub fn into_sink(self) -> S {
        self.sink
    }

    /// Takes in the next bytes. After an error no more may be fed.
    pub fn feed(&mut self, mut piece: &[u8]) -> Result<(), Stop> {
        while let Some((&byte, rest)) = piece.split_first() {
            match self.state {
                State::Body {
                    kind: kind @ (Kind::Sent | Kind::Received),
                    left,
                    ..
                } => {
                    let (body, after) = piece.split_at(piece.len().min(left as usize));
                    self.state = match left - body.len() as u32 {
                        0 => State::Kind,
                        left => State::Body {
                            kind,
                            left,
                            value: 0,
                        },
                    };
                    self.stream(kind, body)?;
                    self.offset += body.len() as u64;
                    piece = after;
                    continue;
                }
                // A moment that is whole in the piece is read at once.
                State::Moment {
                    kind,
                    length,
                    have: 0,
                    ..
                } if piece.len() >= usize::from(MOMENT_SIZE) => {
                    let (moment, after) = piece.split_at(usize::from(MOMENT_SIZE));
                    let value = moment
                        .iter()
                        .fold(0, |sum, &byte| sum << 8 | u64::from(byte));
                    self.offset += u64::from(MOMENT_SIZE) - 1;
                    self.moment(kind, length, MOMENT_SIZE, value)?;
                    self.offset += 1;
                    piece = after;
                    continue;
                }
                State::Header => self.header(byte)?,
                State::Kind => self.kind(byte)?,
                State::Length { kind, have, value } => {
                    self.length(kind, have + 1, value << 8 | u32::from(byte))?
                }
                State::Moment {
                    kind,
                    length,
                    have,
                    value,
                } => self.moment(kind, length, have + 1, value << 8 | u64::from(byte))?,
                State::Body { left, value, .. } => {
                    self.release(left - 1, value << 8 | u16::from(byte))?
                }
            }
            self.offset += 1;
            piece = rest;
        }
        Ok(())
    }

    /// Tells whether the log may end here.
    pub fn finish(&self) -> Result<(), Stop> {
        match self.state {
            State::Kind => Ok(()),
            _ => refuse(10, self.offset),
        }
    }

    fn header(&mut self, byte: u8) -> Result<(), Stop> {
        let (number, is_right) = match self.offset {
            place @ 0..=3 => (1, byte == MAGIC[place as usize]),
            4 => (2, byte == 1 || byte == 2),
            5 => (3, byte <= 1),
            6 => (4, byte <= 1),
            _ => (4, byte == 0),
        };
        if !is_right {
            return refuse(number, self.offset);
        }
        match self.offset {
            4 => self.has_moments = byte == 2,
            5 => self.is_server = byte == 1,
            6 => self.has_releases = byte == 1,
            _ => {}
        }
        if self.offset == HEADER_SIZE - 1 {
            self.state = State::Kind;
        }
        Ok(())
    }

    fn kind(&mut self, byte: u8) -> Result<(), Stop> {
        let (kind, number, is_right) = match byte {
            1 => (Kind::Open, 7, !self.is_open),
            2 => (Kind::Sent, 8, self.is_open),
            3 => (Kind::Received, 8, self.is_open),
            4 => (Kind::Close, 8, self.is_open),
            5 => (Kind::Rest, 8, self.is_open),
            6 => (Kind::Release, 9, self.has_releases),
            _ => return refuse(5, self.offset),
        };
        if !is_right {
            return refuse(number, self.offset);
        }
        let Some(records) = self.records.checked_add(1) else {
            return refuse(14, self.offset);
        };
        self.records = records;
        self.state = State::Length {
            kind,
            have: 0,
            value: 0,
        };
        Ok(())
    }

    fn length(&mut self, kind: Kind, have: u8, value: u32) -> Result<(), Stop> {
        if have < LENGTH_SIZE {
            self.state = State::Length { kind, have, value };
            return Ok(());
        }
        let largest = if self.has_moments {
            LARGEST_TIMED_BODY
        } else {
            LARGEST_BODY
        };
        let is_right = match kind {
            Kind::Sent | Kind::Received => value <= largest,
            Kind::Release => value == 2,
            Kind::Open | Kind::Close | Kind::Rest => value == 0,
        };
        if !is_right {
            return refuse(6, self.offset);
        }
        if self.has_moments {
            self.state = State::Moment {
                kind,
                length: value,
                have: 0,
                value: 0,
            };
            return Ok(());
        }
        self.begin_body(kind, value)
    }

    fn moment(&mut self, kind: Kind, length: u32, have: u8, value: u64) -> Result<(), Stop> {
        if have < MOMENT_SIZE {
            self.state = State::Moment {
                kind,
                length,
                have,
                value,
            };
            return Ok(());
        }
        self.moment = Some(value);
        self.begin_body(kind, length)
    }

    // The head of a record is whole. One without a body is an event here.
    fn begin_body(&mut self, kind: Kind, length: u32) -> Result<(), Stop> {
        self.state = match length {
            0 => State::Kind,
            left => State::Body {
                kind,
                left,
                value: 0,
            },
        };
        match kind {
            Kind::Open => self.connect(true, &Event::Open),
            Kind::Close => self.connect(false, &Event::Close),
            Kind::Rest => self.event(self.offset, &Event::Rest),
            _ => Ok(()),
        }
    }

    // A connection begins or ends; what its directions carried is dropped.
    fn connect(&mut self, is_open: bool, event: &Event) -> Result<(), Stop> {
        self.is_open = is_open;
        self.has_connack = false;
        self.early = 0;
        self.sent.forget();
        self.received.forget();
        self.event(self.offset, event)
    }

    fn release(&mut self, left: u32, value: u16) -> Result<(), Stop> {
        if left > 0 {
            self.state = State::Body {
                kind: Kind::Release,
                left,
                value,
            };
            return Ok(());
        }
        self.state = State::Kind;
        self.event(self.offset, &Event::Release(value))
    }

    // An event, which is complete at this byte. What a CLOSE ends isn't open any more, and a CONNACK has come where it is the event.
    fn event(&mut self, byte: u64, event: &Event) -> Result<(), Stop> {
        if self.is_open && !self.has_connack {
            if self.early == MOST_EARLY {
                return refuse(13, byte);
            }
            self.early += 1;
        }
        let Some(events) = self.events.checked_add(1) else {
            return refuse(14, byte);
        };
        self.events = events;
        let place = Place {
            position: events,
            record: self.records,
            moment: self.moment,
        };
        Ok(self.sink.event(&place, event)?)
    }

    fn direction(&mut self, kind: Kind) -> &mut Direction {
        if kind == Kind::Sent {
            &mut self.sent
        } else {
            &mut self.received
        }
    }

    // The next bytes of a direction; the first of them is at `self.offset`.
    fn stream(&mut self, kind: Kind, bytes: &[u8]) -> Result<(), Stop> {
        let mut done = 0;
        while done < bytes.len() && !self.direction(kind).is_lost {
            if self.direction(kind).pending.is_empty() {
                done += self.whole_packet(kind, &bytes[done..], self.offset + done as u64)?;
            } else {
                done += self.rest_of_packet(kind, &bytes[done..], self.offset + done as u64)?;
            }
        }
        Ok(())
    }

    // Takes a packet out of bytes that begin with one, without a copy if they have all of it. Tells how many it took.
    fn whole_packet(&mut self, kind: Kind, bytes: &[u8], start: u64) -> Result<usize, Stop> {
        let size = match packet::front(bytes) {
            Front::Need => None,
            Front::Lost { length } => return self.lose(kind, start + length as u64 - 1, length),
            Front::Header { body, size } => {
                if size > LARGEST_PACKET {
                    refuse(11, start + body as u64 - 1)?;
                }
                if bytes.len() >= size {
                    self.packet(kind, &bytes[..size], body, start + size as u64 - 1)?;
                    return Ok(size);
                }
                Some(size)
            }
        };
        let direction = self.direction(kind);
        direction.size = size;
        direction.pending.extend_from_slice(bytes);
        Ok(bytes.len())
    }

    // Goes on with an unfinished packet: by one byte until its size is known. Tells how many bytes it took.
    fn rest_of_packet(&mut self, kind: Kind, bytes: &[u8], start: u64) -> Result<usize, Stop> {
        let direction = self.direction(kind);
        let missing = direction
            .size
            .map_or(1, |size| size - direction.pending.len());
        let count = missing.min(bytes.len());
        direction.pending.extend_from_slice(&bytes[..count]);
        let last = start + count as u64 - 1;
        match packet::front(&direction.pending) {
            Front::Need => return Ok(count),
            Front::Lost { .. } => return self.lose(kind, last, count),
            Front::Header { body, size } => {
                if size > LARGEST_PACKET {
                    refuse(11, last)?;
                }
                direction.size = Some(size);
                if direction.pending.len() == size {
                    let pending = std::mem::take(&mut direction.pending);
                    self.packet(kind, &pending, body, last)?;
                    let direction = self.direction(kind);
                    direction.pending = pending;
                    direction.pending.clear();
                }
            }
        }
        Ok(count)
    }

    fn lose(&mut self, kind: Kind, byte: u64, count: usize) -> Result<usize, Stop> {
        let direction = self.direction(kind);
        direction.forget();
        direction.is_lost = true;
        self.item(kind, byte, Item::Lost)?;
        Ok(count)
    }

    fn packet(&mut self, kind: Kind, bytes: &[u8], body: usize, last: u64) -> Result<(), Stop> {
        let item = match packet::decode(bytes, body) {
            Err(Fault::OtherVersion(_)) => return refuse(12, last),
            Err(Fault::Broken { rule, at }) => Item::Bad { rule, at },
            Ok(packet) => {
                let is_from_server = (kind == Kind::Sent) == self.is_server;
                self.has_connack |= packet.kind() == packet::CONNACK && is_from_server;
                Item::Packet(packet)
            }
        };
        self.item(kind, last, item)
    }

    fn item(&mut self, kind: Kind, byte: u64, item: Item) -> Result<(), Stop> {
        match kind {
            Kind::Sent => self.event(byte, &Event::Sent(item)),
            _ => self.event(byte, &Event::Received(item)),
        }
    }
}
