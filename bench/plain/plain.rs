//! The two tools in the obvious way, in plain Rust with nothing verified, to measure against:
//! `plain drive FILE` for one handler and one producer, and `plain replay FILE`.

use std::collections::{BTreeMap, VecDeque};
use std::env;
use std::fs;
use std::io::{self, BufWriter, Write};

/// One handler on a ring of slots, as a queue of events and three counts.
struct Exchange {
    size: u64,
    next: u64,
    front: u64,
    taken: u64,
    completed: u64,
    events: VecDeque<Option<(u64, u64)>>,
}

impl Exchange {
    fn claim(&mut self, n: u64) -> Option<u64> {
        if n == 0 || n > self.size || self.next + n > self.size + self.completed {
            return None;
        }
        for _ in 0..n {
            self.events.push_back(None);
        }
        self.next += n;
        Some(self.next - n)
    }

    fn at(&self, s: u64) -> usize {
        (s - (self.next - self.events.len() as u64)) as usize
    }

    fn write(&mut self, s: u64, event: (u64, u64)) {
        let at = self.at(s);
        self.events[at] = Some(event);
    }
}

fn number(field: &str) -> u64 {
    field.parse().expect("a number")
}

fn drive(text: &str, out: &mut impl Write) -> io::Result<()> {
    let mut lines = text.lines();
    let ring: Vec<&str> = lines.next().expect("a ring").split(',').collect();
    let mut exchange = Exchange {
        size: number(ring[1]),
        next: 0,
        front: 0,
        taken: 0,
        completed: 0,
        events: VecDeque::new(),
    };
    for line in lines {
        let fields: Vec<&str> = line.split(',').collect();
        match fields[0] {
            "with" | "start" => {}
            "claim" => match exchange.claim(number(fields[2])) {
                Some(lo) => writeln!(out, "claimed {} {}", lo, exchange.next - 1)?,
                None => writeln!(out, "refused 1 no-room")?,
            },
            "write" => {
                exchange.write(number(fields[2]), (number(fields[3]), 0));
                writeln!(out, "written")?;
            }
            "publish" => {
                exchange.front = number(fields[3]) + 1;
                writeln!(out, "published")?;
            }
            "poll" => {
                let count = number(fields[2]).min(exchange.front - exchange.taken);
                let end = if exchange.taken + count == exchange.front { "end" } else { "more" };
                write!(out, "batch {} {}", exchange.taken, end)?;
                for s in exchange.taken..exchange.taken + count {
                    write!(out, " {}", exchange.events[exchange.at(s)].expect("written").0)?;
                }
                writeln!(out)?;
                exchange.taken += count;
            }
            "complete" => {
                exchange.completed = number(fields[2]);
                while exchange.next - (exchange.events.len() as u64) < exchange.completed {
                    exchange.events.pop_front();
                }
                writeln!(out, "completed")?;
            }
            other => panic!("{other}"),
        }
    }
    Ok(())
}

#[derive(Default)]
struct Account {
    balance: u128,
    refused: u64,
}

fn withdraw(accounts: &mut BTreeMap<u64, Account>, from: u64, amount: u64) -> bool {
    let account = accounts.entry(from).or_default();
    let pays = account.balance >= u128::from(amount);
    if pays {
        account.balance -= u128::from(amount);
    } else {
        account.refused += 1;
    }
    pays
}

fn replay(text: &str, out: &mut impl Write) -> io::Result<()> {
    let records: Vec<Vec<&str>> = text.lines().map(|line| line.split(',').collect()).collect();
    let mut replica = Vec::new();
    let mut accounts: BTreeMap<u64, Account> = BTreeMap::new();
    writeln!(out, "journal {}", records.len())?;
    for (s, fields) in records.iter().enumerate() {
        writeln!(out, "{},{}", s, fields.join(","))?;
        let head = number(fields[0]) << 56 | number(fields[2]) << 32;
        match fields[1] {
            "deposit" => {
                writeln!(replica, "{:016x}", head | 1 << 48 | number(fields[3]))?;
                accounts.entry(number(fields[2])).or_default().balance += u128::from(number(fields[3]));
            }
            "withdraw" => {
                writeln!(replica, "{:016x}", head | 2 << 48 | number(fields[3]))?;
                withdraw(&mut accounts, number(fields[2]), number(fields[3]));
            }
            _ => {
                let (to, amount) = (number(fields[3]), number(fields[4]));
                writeln!(replica, "{:016x}{:016x}", head | 3 << 48, to << 48 | amount)?;
                if withdraw(&mut accounts, number(fields[2]), amount) {
                    accounts.entry(to).or_default().balance += u128::from(amount);
                } else {
                    accounts.entry(to).or_default();
                }
            }
        }
    }
    writeln!(out, "replica {}", records.len())?;
    out.write_all(&replica)?;
    writeln!(out, "business {}", records.len())?;
    for (number, account) in &accounts {
        writeln!(out, "{},{},{}", number, account.balance, account.refused)?;
    }
    Ok(())
}

fn main() -> io::Result<()> {
    let words: Vec<String> = env::args().collect();
    let text = fs::read_to_string(words.last().expect("a file"))?;
    let mut out = BufWriter::new(io::stdout().lock());
    match words[1].as_str() {
        "drive" => drive(&text, &mut out)?,
        _ => replay(&text, &mut out)?,
    }
    out.flush()
}
