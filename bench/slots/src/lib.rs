//! What the programs have in common that tell how long each of many events took.

use std::error::Error;
use std::io::{self, BufWriter, Write};
use std::time::Instant;
use verified_disruptor::{Plan, Wait, MAX_LIMIT};

/// How a ring's threads wait, by its word.
pub fn wait_named(word: &str) -> Result<Wait, Box<dyn Error>> {
    match word {
        "spinning" => Ok(Wait::Spinning),
        "yielding" => Ok(Wait::Yielding),
        "parking" => Ok(Wait::Parking),
        other => Err(format!("no such way to wait: {other}").into()),
    }
}

/// A ring of 1024 slots.
pub fn plan(upstreams: Vec<u64>, wait: Wait) -> Plan {
    Plan { size: 1024, limit: MAX_LIMIT, upstreams, wait }
}

/// How many nanoseconds passed.
pub fn nanos_since(begun: Instant) -> u64 {
    begun.elapsed().as_nanos() as u64
}

/// Prints a line for each.
pub fn print(times: &[u64]) -> io::Result<()> {
    let mut out = BufWriter::new(io::stdout().lock());
    times.iter().try_for_each(|nanos| writeln!(out, "{nanos}"))?;
    out.flush()
}
