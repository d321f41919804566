//! The job of the program `bench` in plain Rust, written from docs/ without code of the library: it makes
//! the calls of a load on a concentrator, and prints a sum, the written frames, or times.

mod calls;
mod capture;
mod concentrator;
mod config;
mod crc;
mod fault;
mod feed;
mod frame;
mod load;
mod plan;
mod policy;
mod rate;

use calls::{make, Call, Hub};
use capture::Capture;
use fault::number;
use feed::LONGEST_FRAME;
use load::Load;
use std::error::Error;
use std::io::{self, Read, Write};
use std::time::{Duration, Instant};

fn show_sum(hub: &mut Hub, calls: Capture) {
    let mut buffer = [0; LONGEST_FRAME];
    let mut sum = 0xcbf29ce484222325u64;
    let mut add = |byte: u8| sum = (sum ^ u64::from(byte)).wrapping_mul(0x100000001b3);
    for record in calls {
        let answer = make(hub, Call::of(record), &mut buffer);
        add(number(&answer));
        if let Ok(len) = answer {
            buffer[..len].iter().copied().for_each(&mut add);
        }
    }
    let counts = hub.counts();
    println!(
        "{} slots written, {} frames accepted, {} refused, sum {sum:016x}",
        counts.written, counts.accepted, counts.refused
    );
}

fn show_bytes(hub: &mut Hub, calls: Capture) -> io::Result<()> {
    let mut out = io::stdout().lock();
    let mut buffer = [0; LONGEST_FRAME];
    for record in calls {
        if let Ok(len) = make(hub, Call::of(record), &mut buffer) {
            out.write_all(&buffer[..len])?;
        }
    }
    out.flush()
}

fn show_times(hub: &mut Hub, calls: Capture) {
    let mut buffer = [0; LONGEST_FRAME];
    let mut made = [0u64; 4];
    let mut spent = [Duration::ZERO; 4];
    let (mut kind, mut since) = (0, Instant::now());
    let mut stop = |kind: usize, since: &mut Instant| {
        let now = Instant::now();
        spent[kind] += now - *since;
        *since = now;
    };
    for record in calls {
        let call = Call::of(record);
        if call.kind() != kind {
            stop(kind, &mut since);
            kind = call.kind();
        }
        made[kind] += 1;
        let _ = make(hub, call, &mut buffer);
    }
    stop(kind, &mut since);
    for (kind, name) in ["tick", "admit", "pull", "write"].iter().enumerate() {
        println!("{name} {} {}", made[kind], spent[kind].as_nanos());
    }
}

fn main() -> Result<(), Box<dyn Error>> {
    let mut bytes = Vec::new();
    io::stdin().read_to_end(&mut bytes)?;
    let load = Load::read(&bytes).ok_or("no load")?;
    let mut hub = load.open().map_err(|fault| format!("refused: {fault:?}"))?;
    match std::env::args().nth(1).as_deref() {
        None => show_sum(&mut hub, load.calls),
        Some("--bytes") => show_bytes(&mut hub, load.calls)?,
        Some("--times") => show_times(&mut hub, load.calls),
        Some(_) => Err("usage: plain [--bytes | --times] < LOAD")?,
    }
    Ok(())
}
