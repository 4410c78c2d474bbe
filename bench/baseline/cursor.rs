//! The fields of MQTT 5.0 (section 1.5), read from the bytes of one packet.

use crate::packet::Fault;

/// Fields read one after the other. Places count from the packet's first byte.
pub struct Cursor<'a> {
    bytes: &'a [u8],
    at: usize,
}

impl<'a> Cursor<'a> {
    pub fn new(bytes: &'a [u8], at: usize) -> Self {
        Cursor { bytes, at }
    }

    pub fn at(&self) -> usize {
        self.at
    }

    pub fn is_at_end(&self) -> bool {
        self.at == self.bytes.len()
    }

    fn take(&mut self, count: usize, field: usize) -> Result<&'a [u8], Fault> {
        if self.bytes.len() - self.at < count {
            return Err(Fault::broken(6, field));
        }
        let taken = &self.bytes[self.at..self.at + count];
        self.at += count;
        Ok(taken)
    }

    pub fn u8(&mut self) -> Result<u8, Fault> {
        Ok(self.take(1, self.at)?[0])
    }

    pub fn u16(&mut self) -> Result<u16, Fault> {
        let taken = self.take(2, self.at)?;
        Ok(u16::from_be_bytes([taken[0], taken[1]]))
    }

    pub fn u32(&mut self) -> Result<u32, Fault> {
        let taken = self.take(4, self.at)?;
        Ok(u32::from_be_bytes([taken[0], taken[1], taken[2], taken[3]]))
    }

    pub fn varint(&mut self) -> Result<u32, Fault> {
        match varint(&self.bytes[self.at..]) {
            Varint::Short => Err(Fault::broken(6, self.at)),
            Varint::Overlong => Err(Fault::broken(3, self.at)),
            Varint::Value { value, length } => {
                self.at += length;
                Ok(value)
            }
        }
    }

    pub fn binary(&mut self) -> Result<&'a [u8], Fault> {
        let field = self.at;
        let length = self.u16()?;
        self.take(usize::from(length), field)
    }

    pub fn text(&mut self) -> Result<&'a str, Fault> {
        let field = self.at;
        let bytes = self.binary()?;
        let text = std::str::from_utf8(bytes).map_err(|_| Fault::broken(4, field))?;
        if bytes.contains(&0) {
            return Err(Fault::broken(5, field));
        }
        Ok(text)
    }

    /// A pair of texts; a fault of either is where the pair begins.
    pub fn pair(&mut self) -> Result<(), Fault> {
        let field = self.at;
        let at_pair = |fault: Fault| fault.moved_to(field);
        self.text().map_err(at_pair)?;
        self.text().map_err(at_pair)?;
        Ok(())
    }

    pub fn skip_rest(&mut self) {
        self.at = self.bytes.len();
    }

    /// A cursor over the next `count` bytes, past which this one goes; too many break W06 at `field`.
    pub fn part(&mut self, count: usize, field: usize) -> Result<Cursor<'a>, Fault> {
        let at = self.at;
        self.take(count, field)?;
        Ok(Cursor::new(&self.bytes[..at + count], at))
    }
}

/// What is at the front of some bytes, read as a variable byte integer (section 1.5.5).
pub enum Varint {
    Short,
    Overlong,
    Value { value: u32, length: usize },
}

pub fn varint(bytes: &[u8]) -> Varint {
    let mut value = 0;
    for (index, &byte) in bytes.iter().take(4).enumerate() {
        value |= u32::from(byte & 0x7F) << (7 * index);
        if byte & 0x80 == 0 {
            return if byte == 0 && index > 0 {
                Varint::Overlong
            } else {
                Varint::Value {
                    value,
                    length: index + 1,
                }
            };
        }
    }
    if bytes.len() < 4 {
        Varint::Short
    } else {
        Varint::Overlong
    }
}
