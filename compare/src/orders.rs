//! Assignment orders.

const LARGEST: u32 = 999_999_999;

struct Clause {
    target: usize,
    form: u8,
    k: u32,
}

fn clauses(order: &[u8]) -> Vec<Clause> {
    order
        .chunks_exact(6)
        .map(|c| Clause {
            target: c[0] as usize,
            form: c[1],
            k: u32::from_le_bytes([c[2], c[3], c[4], c[5]]),
        })
        .collect()
}

/// Whether the order is lawful for a list of n objects.
pub fn is_lawful(order: &[u8], n: usize) -> bool {
    if order.is_empty() || order.len() > 24 || !order.len().is_multiple_of(6) {
        return false;
    }
    let clauses = clauses(order);
    let all = clauses.iter().all(|c| {
        c.target < n
            && match c.form {
                1 => c.k <= LARGEST,
                2 => (c.k as usize) < n,
                3 => true,
                _ => false,
            }
    });
    let mut targets: Vec<usize> = clauses.iter().map(|c| c.target).collect();
    targets.sort_unstable();
    targets.dedup();
    all && targets.len() == clauses.len()
}

/// How many positions a lawful order writes.
pub fn writes(order: &[u8]) -> usize {
    order.len() / 6
}

/// The positions that a lawful order writes, each with its new value.
pub fn changes(order: &[u8], olds: &[u32]) -> Vec<(usize, u32)> {
    clauses(order)
        .iter()
        .map(|c| {
            let new = match c.form {
                1 => c.k,
                2 => olds[c.k as usize],
                _ => (olds[c.target] as u64 + c.k as u64).min(LARGEST as u64) as u32,
            };
            (c.target, new)
        })
        .collect()
}
