//! A journal in memory: a header and two halves of slots of 8,192 bytes. A slot has a gate, two bytes of length, and the record of an entry.

const SLOT: usize = 8192;
const OPEN: u8 = 0xa5;

pub struct Journal {
    disk: Vec<u8>,
    slots: usize,
    half: usize,
    used: usize,
    room: Vec<u8>,
}

impl Journal {
    pub fn new(slots: usize) -> Journal {
        let mut disk = vec![0; SLOT * (1 + 2 * slots)];
        disk[1..9].copy_from_slice(b"DOTSJNL\x01");
        disk[12..16].copy_from_slice(&(slots as u32).to_be_bytes());
        disk[0] = OPEN;
        Journal { disk, slots, half: 0, used: 0, room: Vec::with_capacity(SLOT) }
    }

    fn place(&self, half: usize, slot: usize) -> usize {
        SLOT * (1 + half * self.slots + slot)
    }

    pub fn is_full(&self) -> bool {
        self.used == self.slots
    }

    /// Appends the record that is written into the room, and answers its slot. The gate is opened behind the record, each in a write of its own.
    pub fn append(&mut self, write: impl FnOnce(&mut Vec<u8>)) -> usize {
        self.room.clear();
        self.room.extend_from_slice(&[0, 0]);
        write(&mut self.room);
        let length = self.room.len() - 2;
        self.room[..2].copy_from_slice(&(length as u16).to_be_bytes());
        let at = self.place(self.half, self.used);
        self.disk[at + 1..at + 1 + self.room.len()].copy_from_slice(&self.room);
        self.disk[at] = OPEN;
        self.used += 1;
        self.used - 1
    }

    /// Keeps the records of these slots alone, in their order, in the other half.
    pub fn compact(&mut self, keep: &[usize]) {
        let other = 1 - self.half;
        for slot in 0..self.slots {
            let to = self.place(other, slot);
            let Some(kept) = keep.get(slot) else {
                self.disk[to] = 0;
                continue;
            };
            let from = self.place(self.half, *kept);
            let length = usize::from(u16::from_be_bytes([self.disk[from + 1], self.disk[from + 2]]));
            self.disk.copy_within(from..from + 3 + length, to);
        }
        self.disk[48] = other as u8;
        self.half = other;
        self.used = keep.len();
    }
}
