//! Counts the instructions and takes the time of both listing programs on large run files, as ratios in one run.
//!
//! `speed LISTING PLAIN`: the proved engine's program, and `plain_listing`.
use plain::loads::{Load, load_file};
use std::io::Write;
use std::process::{Command, ExitCode, Stdio};
use std::time::Instant;

fn run(program: &mut Command, file: &[u8]) -> std::io::Result<(Vec<u8>, String)> {
    let mut child = program
        .stdin(Stdio::piped())
        .stdout(Stdio::piped())
        .stderr(Stdio::piped())
        .spawn()?;
    let mut stdin = child
        .stdin
        .take()
        .ok_or_else(|| std::io::Error::other("no standard input"))?;
    stdin.write_all(file)?;
    std::mem::drop(stdin);
    let output = child.wait_with_output()?;
    Ok((
        output.stdout,
        String::from_utf8_lossy(&output.stderr).into_owned(),
    ))
}

/// Instructions, by callgrind.
fn instructions(program: &str, file: &[u8]) -> std::io::Result<u64> {
    let (_, report) = run(
        Command::new("valgrind").args([
            "--tool=callgrind",
            "--callgrind-out-file=/dev/null",
            program,
        ]),
        file,
    )?;
    let collected = report
        .lines()
        .find_map(|line| line.split("Collected :").nth(1));
    collected
        .and_then(|n| n.trim().parse().ok())
        .ok_or_else(|| std::io::Error::other("callgrind gave no count"))
}

/// The least wall time of several runs, in microseconds.
fn wall(program: &str, file: &[u8]) -> std::io::Result<f64> {
    let mut least = f64::MAX;
    for _ in 0..15 {
        let start = Instant::now();
        run(&mut Command::new(program), file)?;
        least = least.min(start.elapsed().as_secs_f64() * 1e6);
    }
    Ok(least)
}

fn measure(listing: &str, plain: &str) -> std::io::Result<()> {
    println!(
        "| machines | open transactions | steps | proved, instructions | plain, instructions | ratio | proved, us | plain, us | ratio |"
    );
    println!("|---|---|---|---|---|---|---|---|---|");
    for machines in [1, 2, 8] {
        for open in [1, 60] {
            let (file, steps) = load_file(Load { machines, open });
            if run(&mut Command::new(listing), &file)?.0 != run(&mut Command::new(plain), &file)?.0
            {
                return Err(std::io::Error::other("the listings differ"));
            }
            let (a, b) = (instructions(listing, &file)?, instructions(plain, &file)?);
            let (c, d) = (wall(listing, &file)?, wall(plain, &file)?);
            println!(
                "| {machines} | {open} | {steps} | {a} | {b} | {:.2} | {c:.0} | {d:.0} | {:.2} |",
                a as f64 / b as f64,
                c / d
            );
        }
    }
    Ok(())
}

fn main() -> ExitCode {
    let args: Vec<String> = std::env::args().skip(1).collect();
    let [listing, plain] = args.as_slice() else {
        eprintln!("usage: speed LISTING PLAIN");
        return ExitCode::FAILURE;
    };
    match measure(listing, plain) {
        Ok(()) => ExitCode::SUCCESS,
        Err(error) => {
            eprintln!("{error}");
            ExitCode::FAILURE
        }
    }
}
