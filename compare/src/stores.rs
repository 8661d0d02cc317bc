//! Replica stores: a table, or base values with a journal of up to 512 entries.

pub enum Store {
    Table(Vec<u32>),
    Journal {
        base: Vec<u32>,
        entries: Vec<(u8, u32)>,
    },
}

const JOURNAL_ENTRIES: usize = 512;

impl Store {
    /// Machines with an even number have a table, the others a journal.
    pub fn for_machine(machine: usize, objects: usize) -> Store {
        let zeros = vec![0; objects];
        if machine.is_multiple_of(2) {
            Store::Table(zeros)
        } else {
            Store::Journal {
                base: zeros,
                entries: Vec::new(),
            }
        }
    }

    pub fn value(&self, object: u8) -> u32 {
        match self {
            Store::Table(values) => values[object as usize],
            Store::Journal { base, entries } => entries
                .iter()
                .rev()
                .find(|entry| entry.0 == object)
                .map_or(base[object as usize], |entry| entry.1),
        }
    }

    pub fn room(&self) -> usize {
        match self {
            Store::Table(_) => 1024,
            Store::Journal { entries, .. } => JOURNAL_ENTRIES - entries.len(),
        }
    }

    pub fn tidy(&mut self) {
        if let Store::Journal { base, entries } = self {
            for (object, value) in entries.drain(..) {
                base[object as usize] = value;
            }
        }
    }

    /// Writes a value, and makes room first where there is none.
    pub fn write(&mut self, object: u8, value: u32) {
        if self.room() == 0 {
            self.tidy();
        }
        match self {
            Store::Table(values) => values[object as usize] = value,
            Store::Journal { entries, .. } => entries.push((object, value)),
        }
    }
}
