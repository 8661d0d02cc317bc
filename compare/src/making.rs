//! Run files: calls at random, calls that follow the protocol, and files that are damaged afterwards.
use crate::chance::Chance;

pub struct Maker {
    pub chance: Chance,
    pub(crate) machines: usize,
    pub(crate) objects: usize,
    pub(crate) steps: Vec<Vec<u8>>,
}

pub(crate) const LONGEST: usize = 65_536;

impl Maker {
    /// The file of that number.
    pub fn file(number: u64) -> Vec<u8> {
        let mut chance = Chance::new(number + 1);
        let machines = if chance.once_in(40) {
            chance.below(10)
        } else {
            chance.pick(&[1, 2, 2, 8])
        };
        let objects = match chance.below(60) {
            0 => 0,
            1 => 257,
            2..=5 => 256,
            6..=20 => 1 + chance.below(40),
            _ => 1 + chance.below(6),
        };
        let mut maker = Maker {
            chance,
            machines,
            objects,
            steps: Vec::new(),
        };
        match number % 8 {
            0 | 1 => maker.at_random(),
            2 => maker.long_course(),
            _ => maker.courses(),
        }
        let mut file = maker.bytes();
        if number % 8 == 3 || number.is_multiple_of(8) && maker.chance.once_in(3) {
            maker.damage(&mut file);
        }
        file
    }

    pub(crate) fn bytes(&mut self) -> Vec<u8> {
        let mut file = Vec::new();
        for number in [self.machines, self.objects, self.steps.len(), 0] {
            file.extend((number as u32).to_le_bytes());
        }
        for _ in 0..self.objects {
            let value = match self.chance.below(8) {
                0 => self.chance.draw() as u32,
                1 => 999_999_990 + self.chance.below(12) as u32,
                2 => u32::MAX - self.chance.below(3) as u32,
                _ => self.chance.below(50) as u32,
            };
            file.extend(value.to_le_bytes());
        }
        let mut made = 0;
        for step in &self.steps {
            if file.len() + step.len() > LONGEST {
                break;
            }
            file.extend(step);
            made += 1u32;
        }
        file[8..12].copy_from_slice(&made.to_le_bytes());
        if self.chance.once_in(30) {
            file.extend([7, 7, 7]);
        }
        let total = file.len() as u32;
        file[12..16].copy_from_slice(&total.to_le_bytes());
        file
    }

    pub(crate) fn step(&mut self, tag: u8, t: usize, s: usize, list: &[u8], order: &[u8]) {
        let mut bytes = vec![tag, t as u8, s as u8, list.len() as u8, order.len() as u8];
        bytes.extend(list);
        bytes.extend(order);
        self.steps.push(bytes);
    }

    fn machine(&mut self) -> usize {
        let spare = usize::from(self.chance.once_in(25));
        self.chance.below(self.machines.max(1) + spare)
    }

    fn number(&mut self, few: usize) -> usize {
        if self.chance.once_in(60) {
            60 + self.chance.below(8)
        } else {
            self.chance.below(few)
        }
    }

    /// Mostly a lawful list.
    fn list(&mut self) -> Vec<u8> {
        let count = 1 + self.chance.below(self.objects.clamp(1, 8));
        let mut list: Vec<u8> = (0..count)
            .map(|_| self.chance.below(self.objects.max(1)) as u8)
            .collect();
        list.sort_unstable();
        list.dedup();
        match self.chance.below(60) {
            0 => list.clear(),
            1 => list.push(255),
            2 => list.reverse(),
            3 => list = (0..9).collect(),
            4 => list.push(list[0]),
            _ => {}
        }
        list
    }

    /// Mostly a lawful order for a list of n objects.
    fn order(&mut self, n: usize) -> Vec<u8> {
        let mut targets: Vec<u8> = (0..n.min(8) as u8).collect();
        for i in (1..targets.len()).rev() {
            targets.swap(i, self.chance.below(i + 1));
        }
        targets.truncate(1 + self.chance.below(4));
        let mut order = Vec::new();
        for target in targets {
            let form = 1 + self.chance.below(3) as u8;
            let k = match form {
                1 => self.chance.pick(&[0, 1, 7, 999_999_999, 1_000_000]),
                2 => self.chance.below(n.max(1)) as u32,
                _ => self.chance.pick(&[0, 1, 10, 999_999_999, u32::MAX]),
            };
            order.extend([target, form]);
            order.extend(k.to_le_bytes());
        }
        if self.chance.once_in(25) {
            self.spoil(&mut order, n);
        }
        order
    }

    fn spoil(&mut self, order: &mut Vec<u8>, n: usize) {
        match self.chance.below(7) {
            0 => order.clear(),
            1 => order.push(0),
            2 => order.extend([0; 24]),
            3 => order.iter_mut().take(1).for_each(|b| *b = n as u8),
            4 => order.iter_mut().skip(1).take(1).for_each(|b| *b = 4),
            5 => order.extend(order.clone()),
            _ => order.iter_mut().skip(5).take(1).for_each(|b| *b = 0xff),
        }
    }

    fn any_step(&mut self, few: usize) {
        let tag = 1 + self.chance.below(14) as u8;
        let (t, s) = (self.number(few), self.machine());
        match tag {
            1 => {
                let list = self.list();
                let order = self.order(list.len());
                self.step(1, t, s, &list, &order);
            }
            2 | 6 | 7 | 10 => self.step(tag, t, 0, &[], &[]),
            3..=5 | 8 | 9 => self.step(tag, t, s, &[], &[]),
            14 => {
                let list = self.list();
                self.step(14, 0, s, &list, &[]);
            }
            _ => self.step(tag, 0, s, &[], &[]),
        }
    }

    fn at_random(&mut self) {
        let few = 1 + self.chance.below(5);
        for _ in 0..self.chance.below(120) {
            self.any_step(few);
        }
    }

    /// One transaction from start to clearing, with calls of others between, and now and then a restart.
    fn course(&mut self, t: usize, few: usize, quiet: usize) {
        let home = self.chance.below(self.machines.max(1));
        let list = self.list();
        let order = self.order(list.len());
        self.step(1, t, home, &list, &order);
        self.aside(few, quiet);
        self.step(2, t, 0, &[], &[]);
        let others: Vec<usize> = (0..self.machines).filter(|s| *s != home).collect();
        for s in &others {
            self.step(3, t, *s, &[], &[]);
            self.aside(few, quiet);
        }
        let fails = self.chance.once_in(5);
        for s in &others {
            if self.chance.once_in(quiet) {
                self.step(11, 0, *s, &[], &[]);
                self.step(12, 0, *s, &[], &[]);
            }
            let declines = fails && self.chance.once_in(2);
            self.step(if declines { 5 } else { 4 }, t, *s, &[], &[]);
            self.aside(few, quiet);
        }
        if self.chance.once_in(quiet) {
            let s = self.machine();
            self.step(11, 0, s, &[], &[]);
            self.step(12, 0, s, &[], &[]);
        }
        self.step(if fails { 7 } else { 6 }, t, 0, &[], &[]);
        self.aside(few, quiet);
        for s in &others {
            self.step(if fails { 9 } else { 8 }, t, *s, &[], &[]);
            self.aside(few, quiet);
        }
        if !self.chance.once_in(6) {
            self.step(10, t, 0, &[], &[]);
        }
    }

    fn aside(&mut self, few: usize, quiet: usize) {
        if self.chance.once_in(quiet) {
            self.any_step(few);
        } else if self.chance.once_in(3) {
            let (s, list) = (self.machine(), self.list());
            self.step(14, 0, s, &list, &[]);
        }
    }

    fn courses(&mut self) {
        let few = 1 + self.chance.below(6);
        let quiet = self.chance.pick(&[4, 12, 60]);
        for _ in 0..1 + self.chance.below(12) {
            let t = self.number(few);
            self.course(t, few, quiet);
        }
    }

    /// Change after change until journals are full.
    fn long_course(&mut self) {
        let few = 1 + self.chance.below(3);
        for turn in 0..400 {
            let t = self.chance.below(few);
            self.course(t, few, 200);
            if turn % 150 == 149 && self.chance.once_in(2) {
                self.step(13, 0, 1, &[], &[]);
            }
        }
    }

    /// A byte, a field or the length is changed.
    fn damage(&mut self, file: &mut Vec<u8>) {
        match self.chance.below(6) {
            0 => {
                let keep = self.chance.below(file.len() + 1);
                file.truncate(keep);
            }
            1 => {
                let place = self.chance.below(16);
                if place < file.len() {
                    file[place] = self.chance.draw() as u8;
                }
            }
            2 => {
                let keep = self.chance.below(file.len() + 1);
                file.truncate(keep);
                self.mend_total(file);
            }
            3 => {
                let steps = self.chance.below(5000) as u32;
                if file.len() >= 16 {
                    file[8..12].copy_from_slice(&steps.to_le_bytes());
                }
            }
            4 if file.len() > 20 && self.chance.once_in(10) => {
                file.resize(65_536 + self.chance.below(2), 0);
                self.mend_total(file);
            }
            _ => {
                for _ in 0..1 + self.chance.below(3) {
                    let place = self.chance.below(file.len().max(1));
                    if place < file.len() && !(12..16).contains(&place) {
                        file[place] = self.chance.below(20) as u8;
                    }
                }
            }
        }
    }

    fn mend_total(&mut self, file: &mut [u8]) {
        if file.len() >= 16 {
            let total = file.len() as u32;
            file[12..16].copy_from_slice(&total.to_le_bytes());
        }
    }
}
