//! A Modbus message in the making: its fields before they are put out.

use super::cover::Cover;
use crate::modbus::{Wrapping, ROWS};
use crate::random::Random;

pub struct Draft {
    pub unit: u8,
    pub function: u8,
    pub read_offset: u16,
    pub write_offset: u16,
    /// Registers read and written.
    pub counts: (u16, u16),
    pub byte_count: Option<u8>,
    /// Registers that are there, where they aren't as many as the write count says.
    pub registers: Option<usize>,
    pub value: u16,
    pub message: u16,
    /// Bytes added behind the data, or cut off it.
    pub longer: i64,
    /// Bytes of the whole message, where they aren't what the fields give.
    pub total: Option<usize>,
    pub cover: Cover,
}

impl Draft {
    /// A well-formed one for a row, with everything drawn that the row leaves open.
    pub fn of(random: &mut Random, form: Wrapping, row: usize, unit: u8, id: u8) -> Draft {
        let row = &ROWS[row];
        // Where the row names no page, any high byte is good.
        let page = match row.page {
            Some(page) => page,
            None => random.pick(&[0x00, 0x00, 0x01, 0x02, 0x03, 0x05, 0x80, 0xFF]),
        };
        let offset = u16::from_be_bytes([page, id]);
        let mut draft = Draft {
            unit,
            function: row.function,
            read_offset: offset,
            write_offset: offset,
            counts: row.counts,
            byte_count: None,
            registers: None,
            value: random.word() as u16,
            message: row.message,
            longer: 0,
            total: None,
            cover: Cover::good(random, form),
        };
        // "With one, only that side's offset is looked at": the other side may hold anything.
        if row.function == 0x17 && row.counts == (1, 0) {
            draft.write_offset = random.word() as u16;
        }
        if row.function == 0x17 && row.counts == (0, 1) {
            draft.read_offset = random.word() as u16;
        }
        draft
    }

    pub fn bytes(&self, random: &mut Random) -> Vec<u8> {
        let mut body = vec![self.unit, self.function];
        body.extend(self.data());
        let length = match self.total {
            Some(total) => total.saturating_sub(self.cover.bytes()),
            None => (body.len() as i64 + self.longer) as usize,
        };
        while body.len() < length {
            body.push(random.byte());
        }
        body.truncate(length);
        let mut message = self.cover.around(random, body);
        if let Some(total) = self.total {
            message.truncate(total);
        }
        message
    }

    fn data(&self) -> Vec<u8> {
        let (read, written) = self.counts;
        // A function that no row has gets the form of 03.
        let (numbers, has_registers) = match self.function & 0x7F {
            0x06 => (vec![self.write_offset, self.value], false),
            0x10 => (vec![self.write_offset, written], true),
            0x17 => (
                vec![self.read_offset, read, self.write_offset, written],
                true,
            ),
            0x41 => (vec![self.read_offset, self.value, self.message], false),
            _ => (vec![self.read_offset, read], false),
        };
        let mut data: Vec<u8> = numbers.into_iter().flat_map(u16::to_be_bytes).collect();
        if has_registers {
            self.put_registers(&mut data);
        }
        data
    }

    /// The byte count and as many bytes as the write count asks for, up to a few registers.
    fn put_registers(&self, data: &mut Vec<u8>) {
        let registers = self.registers.unwrap_or(usize::from(self.counts.1).min(4));
        data.push(self.byte_count.unwrap_or(2 * registers as u8));
        for _ in 0..registers {
            data.extend(self.value.to_be_bytes());
        }
    }
}
