//! The run file: header, opening values, steps, and every fault.
use crate::register::Call;

pub struct Header {
    pub machines: usize,
    pub objects: usize,
    pub steps: u32,
}

/// A fault's number and byte.
pub type Fault = (u8, usize);

fn number(file: &[u8], place: usize) -> u32 {
    u32::from_le_bytes([
        file[place],
        file[place + 1],
        file[place + 2],
        file[place + 3],
    ])
}

/// The header of a file that a listing has stores for.
pub fn header(file: &[u8]) -> Result<Header, Fault> {
    if file.len() < 16 {
        return Err((30, file.len()));
    }
    if file.len() > 65_536 || number(file, 12) as usize != file.len() {
        return Err((31, 12));
    }
    let machines = number(file, 0);
    let objects = number(file, 4);
    if !(1..=8).contains(&machines) {
        return Err((36, 0));
    }
    if !(1..=256).contains(&objects) {
        return Err((36, 4));
    }
    if 16 + 4 * objects as usize > file.len() {
        return Err((32, 12));
    }
    if ![1, 2, 8].contains(&machines) {
        return Err((37, 0));
    }
    Ok(Header {
        machines: machines as usize,
        objects: objects as usize,
        steps: number(file, 8),
    })
}

pub fn opening_value(file: &[u8], object: usize) -> u32 {
    number(file, 16 + 4 * object)
}

/// Whether each call names the transaction, the machine, the list and the order.
const NAMED: [[bool; 4]; 14] = [
    [true, true, true, true],
    [true, false, false, false],
    [true, true, false, false],
    [true, true, false, false],
    [true, true, false, false],
    [true, false, false, false],
    [true, false, false, false],
    [true, true, false, false],
    [true, true, false, false],
    [true, false, false, false],
    [false, true, false, false],
    [false, true, false, false],
    [false, true, false, false],
    [false, true, true, false],
];

/// The call of the step at a place, and the place after it.
pub fn step(file: &[u8], place: usize) -> Result<(Call<'_>, usize), Fault> {
    let rest = &file[place..];
    if rest.len() < 5 {
        return Err((33, place));
    }
    let tag = rest[0];
    if !(1..=14).contains(&tag) {
        return Err((34, place));
    }
    let named = NAMED[tag as usize - 1];
    for field in 0..4 {
        if !named[field] && rest[field + 1] != 0 {
            return Err((35, place + field + 1));
        }
    }
    let list_end = 5 + rest[3] as usize;
    let end = list_end + rest[4] as usize;
    if end > rest.len() {
        return Err((33, place));
    }
    let (t, s, list, order) = (rest[1], rest[2], &rest[5..list_end], &rest[list_end..end]);
    let call = match tag {
        1 => Call::Start(t, s, list, order),
        2 => Call::Issue(t),
        3 => Call::Begin(t, s),
        4 => Call::Promise(t, s),
        5 => Call::Decline(t, s),
        6 => Call::Commit(t),
        7 => Call::Abort(t),
        8 => Call::Apply(t, s),
        9 => Call::Drop(t, s),
        10 => Call::Clear(t),
        11 => Call::Down(s),
        12 => Call::Up(s),
        13 => Call::Tidy(s),
        _ => Call::Read(s, list),
    };
    Ok((call, place + end))
}
