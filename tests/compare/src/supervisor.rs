//! Starts the workers, one for each core, follows what they print, and sums up.

use crate::coverage::Coverage;
use std::io::{BufRead, BufReader};
use std::process::{Child, Command, ExitCode, Stdio};
use std::sync::mpsc::{self, Receiver, RecvTimeoutError};
use std::thread;
use std::time::{Duration, Instant};

/// A case that takes longer counts as one that never ends.
const PATIENCE: Duration = Duration::from_secs(60);

/// From so many sheets on, everything that is wanted of the generator must have occurred.
const LONG_RUN: u64 = 5_000;

type Counts = Vec<(String, u64)>;

pub fn run(count: u64, first: u64, price: Option<&str>) -> ExitCode {
    let began = Instant::now();
    let mut seen = Coverage::default();
    let mut failures = 0;
    for outcome in start_all(count, first, price) {
        match outcome {
            Ok(counts) => counts.iter().for_each(|(name, n)| seen.add(name, *n)),
            Err(why) => {
                failures += 1;
                println!("FAILED {why}");
            }
        }
    }
    for (name, n) in seen.lines() {
        println!("{n:>9} {name}");
    }
    if failures == 0 && count >= LONG_RUN {
        for what in seen.missing(count, price.is_some()) {
            failures += 1;
            println!("FAILED {what}");
        }
    }
    println!("{count} sheets from seed {first} in {:.1} s: {failures} failures", began.elapsed().as_secs_f64());
    if failures == 0 {
        ExitCode::SUCCESS
    } else {
        ExitCode::FAILURE
    }
}

/// A worker for the rows, and one for each core that takes its share of the seeds.
fn start_all(count: u64, first: u64, price: Option<&str>) -> Vec<Result<Counts, String>> {
    let workers = thread::available_parallelism().map_or(1, |n| n.get() as u64);
    let mut commands = vec![vec!["rows".to_string()]];
    for number in 0..workers {
        let share = (count + workers - 1 - number) / workers;
        commands.push([share, first + number, workers].map(|n| n.to_string()).to_vec());
    }
    for words in &mut commands {
        words.insert(0, "worker".to_string());
        words.extend(price.map(str::to_string));
    }
    let followers: Vec<_> = commands.into_iter().map(|words| thread::spawn(move || follow(&words))).collect();
    followers.into_iter().map(|follower| follower.join().expect("a follower ends")).collect()
}

/// Starts a worker and reads what it prints: its counts, or what went wrong and where.
fn follow(words: &[String]) -> Result<Counts, String> {
    let program = std::env::current_exe().map_err(|why| why.to_string())?;
    let started = Command::new(program).args(words).stdout(Stdio::piped()).spawn();
    let mut child = started.map_err(|why| why.to_string())?;
    let lines = lines_of(&mut child);
    let mut place = "before its first case".to_string();
    let mut counts = Vec::new();
    let mut complaint = Vec::new();
    loop {
        let line = match lines.recv_timeout(PATIENCE) {
            Ok(line) => line,
            Err(RecvTimeoutError::Disconnected) => break,
            Err(RecvTimeoutError::Timeout) => {
                complaint.push(format!("no answer within {} s", PATIENCE.as_secs()));
                let _ = child.kill();
                break;
            }
        };
        match line.splitn(3, ' ').collect::<Vec<_>>()[..] {
            ["at", ..] => place = line,
            ["count", n, name] => counts.push((name.to_string(), n.parse().unwrap_or(0))),
            _ => complaint.push(line),
        }
    }
    let status = child.wait().map_err(|why| why.to_string())?;
    if !status.success() && complaint.is_empty() {
        complaint.push(format!("the worker died: {status}"));
    }
    if complaint.is_empty() {
        Ok(counts)
    } else {
        let price = words.get(4).map_or("", String::as_str);
        Err(format!("{place}: {}{}", complaint.join("\n"), again(&place, price)))
    }
}

/// How a generated case is made again.
fn again(place: &str, price: &str) -> String {
    match place.strip_prefix("at seed ") {
        Some(seed) => format!("\nagain: compare 1 {seed} {price}").trim_end().to_string(),
        None => String::new(),
    }
}

/// The lines that a process prints, as they come.
fn lines_of(child: &mut Child) -> Receiver<String> {
    let (sender, receiver) = mpsc::channel();
    let output = child.stdout.take().expect("its output is a pipe");
    thread::spawn(move || {
        for line in BufReader::new(output).lines().map_while(Result::ok) {
            if sender.send(line).is_err() {
                break;
            }
        }
    });
    receiver
}
