//! The register: two-phase commit over all machines.
use crate::orders;
use crate::stores::Store;

#[derive(Clone, Copy, PartialEq, Eq)]
pub enum Status {
    None,
    Pending,
    Promised,
    Applied,
    Dropped,
}

#[derive(Clone, Copy, PartialEq, Eq)]
enum Decision {
    Open,
    Committed,
    Aborted,
}

struct Transaction {
    decision: Decision,
    home: usize,
    list: Vec<u8>,
    order: Vec<u8>,
    status: Vec<Status>,
}

impl Transaction {
    fn holds(&self, s: usize) -> bool {
        matches!(self.status[s], Status::Pending | Status::Promised)
    }
}

pub enum Call<'a> {
    Start(u8, u8, &'a [u8], &'a [u8]),
    Issue(u8),
    Begin(u8, u8),
    Promise(u8, u8),
    Decline(u8, u8),
    Commit(u8),
    Abort(u8),
    Apply(u8, u8),
    Drop(u8, u8),
    Clear(u8),
    Down(u8),
    Up(u8),
    Tidy(u8),
    Read(u8, &'a [u8]),
}

pub struct Register {
    stores: Vec<Store>,
    up: Vec<bool>,
    objects: usize,
    table: Vec<Option<Transaction>>,
}

type Answer = Result<Vec<u32>, u8>;

fn refuse_if(test: bool, number: u8) -> Result<(), u8> {
    if test { Err(number) } else { Ok(()) }
}

impl Register {
    /// A register over stores that hold the same values.
    pub fn open(stores: Vec<Store>, objects: usize) -> Register {
        let machines = stores.len();
        Register {
            stores,
            up: vec![true; machines],
            objects,
            table: (0..64).map(|_| None).collect(),
        }
    }

    pub fn call(&mut self, call: Call<'_>) -> Answer {
        match call {
            Call::Start(t, s, list, order) => self.start(t, s, list, order)?,
            Call::Issue(t) => self.issue(t)?,
            Call::Begin(t, s) => self.begin(t, s)?,
            Call::Promise(t, s) => self.vote(t, s, true)?,
            Call::Decline(t, s) => self.vote(t, s, false)?,
            Call::Commit(t) => self.commit(t)?,
            Call::Abort(t) => self.abort(t)?,
            Call::Apply(t, s) => self.apply(t, s)?,
            Call::Drop(t, s) => self.drop(t, s)?,
            Call::Clear(t) => self.clear(t)?,
            Call::Down(s) => self.down(s)?,
            Call::Up(s) => self.come_up(s)?,
            Call::Tidy(s) => self.tidy(s)?,
            Call::Read(s, list) => return self.read(s, list),
        }
        Ok(Vec::new())
    }

    fn known(&self, s: u8) -> Result<usize, u8> {
        refuse_if(s as usize >= self.stores.len(), 1)?;
        Ok(s as usize)
    }

    fn running(&self, s: usize) -> Result<(), u8> {
        refuse_if(!self.up[s], 17)
    }

    fn list_check(&self, list: &[u8]) -> Result<(), u8> {
        refuse_if(list.is_empty() || list.len() > 8, 2)?;
        refuse_if(list.iter().any(|o| *o as usize >= self.objects), 3)?;
        refuse_if(list.windows(2).any(|w| w[0] >= w[1]), 4)
    }

    fn used(&self, t: u8) -> Result<&Transaction, u8> {
        refuse_if(t > 63, 6)?;
        self.table[t as usize].as_ref().ok_or(10)
    }

    fn not_held(&self, s: usize, list: &[u8]) -> Result<(), u8> {
        let held = self
            .table
            .iter()
            .flatten()
            .any(|x| x.holds(s) && x.list.iter().any(|o| list.contains(o)));
        refuse_if(held, 8)
    }

    fn has_room(&self, s: usize, x: &Transaction) -> Result<(), u8> {
        let owed: usize = self
            .table
            .iter()
            .flatten()
            .filter(|y| y.status[s] == Status::Promised)
            .map(|y| orders::writes(&y.order))
            .sum();
        refuse_if(self.stores[s].room() < owed + orders::writes(&x.order), 19)
    }

    fn set(&mut self, t: u8, s: usize, status: Status) {
        if let Some(x) = self.table[t as usize].as_mut() {
            x.status[s] = status;
        }
    }

    fn decide(&mut self, t: u8, decision: Decision) {
        if let Some(x) = self.table[t as usize].as_mut() {
            x.decision = decision;
        }
    }

    fn start(&mut self, t: u8, s: u8, list: &[u8], order: &[u8]) -> Result<(), u8> {
        refuse_if(t > 63, 6)?;
        refuse_if(self.table[t as usize].is_some(), 9)?;
        let home = self.known(s)?;
        self.running(home)?;
        self.list_check(list)?;
        refuse_if(!orders::is_lawful(order, list.len()), 5)?;
        self.table[t as usize] = Some(Transaction {
            decision: Decision::Open,
            home,
            list: list.to_vec(),
            order: order.to_vec(),
            status: vec![Status::None; self.stores.len()],
        });
        Ok(())
    }

    fn issue(&mut self, t: u8) -> Result<(), u8> {
        let x = self.used(t)?;
        refuse_if(x.decision != Decision::Open, 11)?;
        refuse_if(x.status[x.home] != Status::None, 12)?;
        self.running(x.home)?;
        self.not_held(x.home, &x.list)?;
        self.has_room(x.home, x)?;
        let home = x.home;
        self.set(t, home, Status::Promised);
        Ok(())
    }

    fn begin(&mut self, t: u8, s: u8) -> Result<(), u8> {
        let x = self.used(t)?;
        let s = self.known(s)?;
        refuse_if(x.decision != Decision::Open, 11)?;
        refuse_if(s == x.home, 13)?;
        refuse_if(x.status[x.home] != Status::Promised, 12)?;
        refuse_if(x.status[s] != Status::None, 12)?;
        self.running(s)?;
        self.not_held(s, &x.list)?;
        self.set(t, s, Status::Pending);
        Ok(())
    }

    fn vote(&mut self, t: u8, s: u8, yes: bool) -> Result<(), u8> {
        let x = self.used(t)?;
        let s = self.known(s)?;
        refuse_if(x.decision != Decision::Open, 11)?;
        refuse_if(s == x.home, 13)?;
        refuse_if(x.status[s] != Status::Pending, 12)?;
        self.running(s)?;
        if yes {
            self.has_room(s, x)?;
        }
        self.set(
            t,
            s,
            if yes {
                Status::Promised
            } else {
                Status::Dropped
            },
        );
        Ok(())
    }

    fn carry_out(&mut self, t: u8, s: usize) {
        let Some(x) = self.table[t as usize].as_mut() else {
            return;
        };
        let store = &mut self.stores[s];
        let olds: Vec<u32> = x.list.iter().map(|o| store.value(*o)).collect();
        let mut changes = orders::changes(&x.order, &olds);
        changes.sort_unstable();
        for (position, value) in changes {
            store.write(x.list[position], value);
        }
        x.status[s] = Status::Applied;
    }

    fn commit(&mut self, t: u8) -> Result<(), u8> {
        let x = self.used(t)?;
        refuse_if(x.decision != Decision::Open, 11)?;
        self.running(x.home)?;
        refuse_if(x.status.iter().any(|s| *s != Status::Promised), 14)?;
        let home = x.home;
        self.carry_out(t, home);
        self.decide(t, Decision::Committed);
        Ok(())
    }

    fn abort(&mut self, t: u8) -> Result<(), u8> {
        let x = self.used(t)?;
        refuse_if(x.decision != Decision::Open, 11)?;
        self.running(x.home)?;
        let may_commit =
            x.status[x.home] == Status::Promised && !x.status.contains(&Status::Dropped);
        refuse_if(may_commit, 15)?;
        let home = x.home;
        self.set(t, home, Status::Dropped);
        self.decide(t, Decision::Aborted);
        Ok(())
    }

    fn apply(&mut self, t: u8, s: u8) -> Result<(), u8> {
        let x = self.used(t)?;
        let s = self.known(s)?;
        refuse_if(x.decision != Decision::Committed, 11)?;
        refuse_if(x.status[s] != Status::Promised, 12)?;
        self.running(s)?;
        self.carry_out(t, s);
        Ok(())
    }

    fn drop(&mut self, t: u8, s: u8) -> Result<(), u8> {
        let x = self.used(t)?;
        let s = self.known(s)?;
        refuse_if(x.decision != Decision::Aborted, 11)?;
        refuse_if(!x.holds(s), 12)?;
        self.running(s)?;
        self.set(t, s, Status::Dropped);
        Ok(())
    }

    fn clear(&mut self, t: u8) -> Result<(), u8> {
        let x = self.used(t)?;
        refuse_if(x.decision == Decision::Open, 11)?;
        refuse_if((0..self.stores.len()).any(|s| x.holds(s)), 16)?;
        self.table[t as usize] = None;
        Ok(())
    }

    fn down(&mut self, s: u8) -> Result<(), u8> {
        let s = self.known(s)?;
        refuse_if(!self.up[s], 18)?;
        self.up[s] = false;
        Ok(())
    }

    fn come_up(&mut self, s: u8) -> Result<(), u8> {
        let s = self.known(s)?;
        refuse_if(self.up[s], 18)?;
        self.up[s] = true;
        for x in self.table.iter_mut().flatten() {
            if x.status[s] == Status::Pending {
                x.status[s] = Status::Dropped;
            }
        }
        Ok(())
    }

    fn tidy(&mut self, s: u8) -> Result<(), u8> {
        let s = self.known(s)?;
        self.running(s)?;
        self.stores[s].tidy();
        Ok(())
    }

    fn read(&self, s: u8, list: &[u8]) -> Answer {
        let s = self.known(s)?;
        self.running(s)?;
        self.list_check(list)?;
        self.not_held(s, list)?;
        Ok(list.iter().map(|o| self.stores[s].value(*o)).collect())
    }
}
