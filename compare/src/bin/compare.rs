//! Makes run files, lists each with both engines, and compares the listings byte for byte.
//!
//! `compare LISTING [COUNT]`: LISTING is the proved engine's program, COUNT how many files (20,000).
use plain::listing::list;
use plain::making::Maker;
use std::collections::BTreeMap;
use std::io::Write;
use std::process::{Command, ExitCode, Stdio};

/// Every answer number and fault that a listing can show.
const POSSIBLE: [u32; 27] = [
    0, 1, 2, 3, 4, 5, 6, 8, 9, 10, 11, 12, 13, 14, 15, 16, 17, 18, 19, 30, 31, 32, 33, 34, 35, 36,
    37,
];

fn proved(listing: &str, file: &[u8]) -> std::io::Result<Vec<u8>> {
    let mut child = Command::new(listing)
        .stdin(Stdio::piped())
        .stdout(Stdio::piped())
        .spawn()?;
    let mut stdin = child
        .stdin
        .take()
        .ok_or_else(|| std::io::Error::other("no standard input"))?;
    // A listing may end before it has read all of a file that is too long.
    let _ = stdin.write_all(file);
    std::mem::drop(stdin);
    Ok(child.wait_with_output()?.stdout)
}

fn count_numbers(text: &str, seen: &mut BTreeMap<u32, u64>) -> u64 {
    let mut steps = 0;
    for line in text.lines() {
        let number = line.split(' ').nth(1).and_then(|word| word.parse().ok());
        if let Some(number) = number {
            *seen.entry(number).or_insert(0) += 1;
        }
        steps += u64::from(!line.starts_with("fault"));
    }
    steps
}

fn main() -> ExitCode {
    let mut args = std::env::args().skip(1);
    let Some(listing) = args.next() else {
        eprintln!("usage: compare LISTING [COUNT]");
        return ExitCode::FAILURE;
    };
    let count: u64 = args.next().and_then(|n| n.parse().ok()).unwrap_or(20_000);
    let mut seen = BTreeMap::new();
    let mut steps = 0;
    for number in 0..count {
        let file = Maker::file(number);
        let ours = list(&file);
        steps += count_numbers(&ours, &mut seen);
        match proved(&listing, &file) {
            Ok(theirs) if theirs == ours.as_bytes() => {}
            Ok(theirs) => {
                let _ = std::fs::write("/tmp/differs.run", &file);
                println!("file {number} differs; it is in /tmp/differs.run");
                for (a, b) in String::from_utf8_lossy(&theirs).lines().zip(ours.lines()) {
                    if a != b {
                        println!("proved: {a}\nplain:  {b}");
                        break;
                    }
                }
                return ExitCode::FAILURE;
            }
            Err(error) => {
                eprintln!("{listing}: {error}");
                return ExitCode::FAILURE;
            }
        }
    }
    println!("{count} files, {steps} steps, all listings equal");
    for (number, times) in &seen {
        println!("{number:>4} {times}");
    }
    let missing: Vec<u32> = POSSIBLE
        .into_iter()
        .filter(|n| !seen.contains_key(n))
        .collect();
    if !missing.is_empty() {
        println!("never seen: {missing:?}");
        return ExitCode::FAILURE;
    }
    ExitCode::SUCCESS
}
