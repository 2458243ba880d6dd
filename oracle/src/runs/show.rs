//! Shows one record of a file of calls, for a reader who looks for a difference.

use std::fs::File;
use std::io::{BufReader, Read};
use std::process::ExitCode;

use crate::runs::lines::hex;
use crate::runs::Options;

/// `--calls FILE --record N`: the record's run within the file, its kind and its bytes.
pub fn run() -> ExitCode {
    let options = Options::read();
    let wanted = options.number("--record", 1);
    let Ok(file) = File::open(options.text("--calls")) else {
        eprintln!("oracle: no file of calls");
        return ExitCode::FAILURE;
    };
    let mut calls = BufReader::new(file);
    let mut setups = 0;
    for number in 1..=wanted {
        let Some((kind, body)) = record(&mut calls) else {
            eprintln!("oracle: the file has no record {wanted}");
            return ExitCode::FAILURE;
        };
        setups += u64::from(kind == 1);
        if number == wanted {
            println!("record {number}, of pairing {setups} in the file");
            describe(kind, &body);
        }
    }
    ExitCode::SUCCESS
}

fn record(calls: &mut impl Read) -> Option<(u16, Vec<u8>)> {
    let mut head = [0; 4];
    calls.read_exact(&mut head).ok()?;
    let [a, b, c, d] = head;
    let mut body = vec![0; usize::from(u16::from_le_bytes([a, b]))];
    calls.read_exact(&mut body).ok()?;
    Some((u16::from_le_bytes([c, d]), body))
}

fn describe(kind: u16, body: &[u8]) {
    match (kind, body.len()) {
        (1, _) => println!("setup {}", hex(body)),
        (2, 156..) => {
            println!("command {}, outbox {}", hex(&body[156..]), outbox(body));
            println!("supplied {}", hex(&body[2..156]));
        }
        (3, 209) => {
            println!(
                "event {} number {} oob {} {} {}, outbox {}",
                body[156],
                u32::from_le_bytes(body[157..161].try_into().unwrap()),
                hex(&body[161..177]),
                hex(&body[177..193]),
                hex(&body[193..]),
                outbox(body)
            );
            println!("supplied {}", hex(&body[2..156]));
        }
        _ => println!("kind {kind} {}", hex(body)),
    }
}

fn outbox(body: &[u8]) -> u16 {
    u16::from_le_bytes([body[0], body[1]])
}
