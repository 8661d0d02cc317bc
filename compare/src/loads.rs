//! Large run files, for measuring.
use crate::chance::Chance;
use crate::making::{LONGEST, Maker};

/// A run file of the greatest length: reads and whole changes, while some transactions stay open.
pub struct Load {
    pub machines: usize,
    pub open: usize,
}

/// The file, and how many steps it has.
pub fn load_file(load: Load) -> (Vec<u8>, u32) {
    let mut maker = Maker {
        chance: Chance::new(99),
        machines: load.machines,
        objects: 256,
        steps: Vec::new(),
    };
    // Open transactions hold one object each, from 100 on, at every machine.
    for t in 1..load.open {
        maker.whole(t, &[100 + t as u8], false);
    }
    let longest = LONGEST - 16 - 4 * 256;
    while maker.steps.iter().map(Vec::len).sum::<usize>() < longest - 600 {
        let first = maker.chance.below(60) as u8;
        maker.whole(0, &[first, first + 20], true);
        for _ in 0..8 {
            let s = maker.chance.below(load.machines);
            let first = maker.chance.below(40) as u8;
            maker.step(14, 0, s, &[first, first + 1, first + 30, first + 40], &[]);
        }
        if maker.chance.once_in(20) {
            for s in 0..load.machines {
                maker.step(13, 0, s, &[], &[]);
            }
        }
    }
    let file = maker.bytes();
    let steps = u32::from_le_bytes([file[8], file[9], file[10], file[11]]);
    (file, steps)
}

impl Maker {
    /// A change at every machine, up to its promises, or up to its clearing.
    fn whole(&mut self, t: usize, list: &[u8], to_its_end: bool) {
        let order = [0, 3, 1, 0, 0, 0];
        self.step(1, t, 0, list, &order);
        self.step(2, t, 0, &[], &[]);
        for s in 1..self.machines {
            self.step(3, t, s, &[], &[]);
            self.step(4, t, s, &[], &[]);
        }
        if to_its_end {
            self.step(6, t, 0, &[], &[]);
            for s in 1..self.machines {
                self.step(8, t, s, &[], &[]);
            }
            self.step(10, t, 0, &[], &[]);
        }
    }
}
