// Times the crate's acceptor over MemStorage and its proposer beside ours, on the same messages in one run: bench MESSAGES. It stands inside a
// copy of the crate, because `Ballot`'s field is private. Messages are made outside the measured time, a batch at a time, and the answers
// of the two sides are held to each other: a run whose answers differ is no measurement.
use super::mirkaspel as port;
use super::*;
use std::io::Write;
use std::time::{Duration, Instant, UNIX_EPOCH};

const BATCH: u64 = 5_000;
const VALUE: usize = 32;
const ACCEPTORS: [u16; 3] = [1, 2, 3];
const TIMEOUT: u64 = 1_000_000;

/// What one side did: the time it took, and a sum over its answers.
#[derive(Clone, Copy, Default)]
struct Side {
    time: Duration,
    answers: u64,
}

fn mixed(sum: u64, word: u64) -> u64 {
    (sum ^ word).wrapping_mul(0x100000001b3).rotate_left(7)
}

fn random(state: &mut u64) -> u64 {
    *state ^= *state << 13;
    *state ^= *state >> 7;
    *state ^= *state << 17;
    *state
}

fn key(n: u64) -> Vec<u8> {
    format!("valve {:04}", n).into_bytes()
}

fn value(n: u64) -> Vec<u8> {
    let mut v = format!("drive {} open", n).into_bytes();
    v.resize(VALUE, b' ');
    v
}

fn progress(what: &str, done: u64, all: u64) {
    eprint!("\r{}: {} of {} messages ", what, done, all);
    let _ = std::io::stderr().flush();
}

/// The crate's answers as the numbers that ours are compared by: Ok or not, the ballots, and the value's length.
fn crate_sum(sum: u64, answers: &[(String, Rpc)]) -> u64 {
    let mut s = mixed(sum, answers.len() as u64);
    if let Some((_, rpc)) = answers.first() {
        s = match rpc {
            Rpc::ProposeRes { req_ballot, last_accepted_ballot, last_accepted_value, res } => {
                let length = last_accepted_value.as_ref().map_or(0, |v| v.len() as u64 + 1);
                mixed(mixed(mixed(mixed(s, req_ballot.0), last_accepted_ballot.0), length), res.is_ok() as u64)
            }
            Rpc::AcceptRes(ballot, res) => mixed(mixed(s, ballot.0), res.is_ok() as u64),
            Rpc::ProposeReq(ballot, k) => mixed(mixed(s, ballot.0), k.len() as u64),
            Rpc::AcceptReq(ballot, k, v) => mixed(mixed(mixed(s, ballot.0), k.len() as u64), v.as_ref().map_or(0, |v| v.len() as u64 + 1)),
            Rpc::ClientResponse(id, res) => mixed(mixed(s, *id), res.is_ok() as u64),
            _ => s,
        }
    }
    s
}

/// The same of ours.
fn port_sum(sum: u64, answer: &Result<port::Answer, port::Refused>) -> u64 {
    let a = match answer {
        Ok(a) => a,
        Err(r) => panic!("refusal {} in a benchmark", r.0),
    };
    let m = &a.message;
    let answers = match a.kind {
        port::NOTHING => 0,
        port::BROADCAST => a.entries,
        _ => 1,
    };
    let s = mixed(sum, answers);
    let length = if m.value == 0 { 0 } else { a.value_len + 1 };
    match m.kind {
        port::PROPOSE_RES => mixed(mixed(mixed(mixed(s, m.number), m.accepted), length), (m.result == port::OK) as u64),
        port::ACCEPT_RES => mixed(mixed(s, m.number), (m.result == port::OK) as u64),
        port::PROPOSE_REQ => mixed(mixed(s, m.number), a.key_len),
        port::ACCEPT_REQ => mixed(mixed(mixed(s, m.number), a.key_len), length),
        port::CLIENT_RESPONSE => mixed(mixed(s, m.number), (m.result == port::OK) as u64),
        _ => s,
    }
}

/// Proposals and acceptances in turn, for keys at random, at rising ballots: message i is for ballot i / 2 + 1.
fn acceptors(keys: u64, all: u64) -> (Side, Side) {
    let (mut theirs, mut ours) = (Side::default(), Side::default());
    let mut party: Acceptor<MemStorage> = Acceptor::default();
    let mut table = vec![0u8; port::table_bytes(keys as usize)];
    let mut sent = [0u8; port::ACCEPTOR_SENT];
    let (mut state, mut done) = (keys + 1, 0);
    while done < all {
        let batch: Vec<(u64, u64)> = (done..(done + BATCH).min(all)).map(|i| (i, random(&mut state) % keys)).collect();
        let messages: Vec<(String, Rpc)> = batch
            .iter()
            .map(|&(i, k)| {
                let ballot = Ballot(i / 2 + 1);
                ("20".to_string(), if i % 2 == 0 { Rpc::ProposeReq(ballot, key(k)) } else { Rpc::AcceptReq(ballot, key(k), Some(value(i))) })
            })
            .collect();
        let bytes: Vec<(port::Message, Vec<u8>, Vec<u8>)> = batch
            .iter()
            .map(|&(i, k)| {
                let kind = if i % 2 == 0 { port::PROPOSE_REQ } else { port::ACCEPT_REQ };
                (port::Message { kind, number: i / 2 + 1, value: i % 2, ..Default::default() }, key(k), value(i))
            })
            .collect();
        let from = Instant::now();
        for (peer, rpc) in messages {
            theirs.answers = crate_sum(theirs.answers, &party.receive(UNIX_EPOCH, peer, rpc));
        }
        theirs.time += from.elapsed();
        let from = Instant::now();
        for (m, k, v) in &bytes {
            let b = port::Bytes { key: k, value: v, ..Default::default() };
            ours.answers = port_sum(ours.answers, &port::acceptor_receive(&mut table, keys as usize, 20, m, b, &mut sent));
        }
        ours.time += from.elapsed();
        done += batch.len() as u64;
        progress(&format!("acceptors, {} keys", keys), done, all);
    }
    eprintln!();
    (theirs, ours)
}

/// One step of an order: which of its messages comes, and for which order.
fn step(i: u64, pending: u64) -> (u64, u64) {
    let round = i / (5 * pending);
    let within = i % (5 * pending);
    (within / pending, round * pending + within % pending + 1)
}

/// Orders through a proposer with three acceptors, so many pending at a time: each is a request, two promises and two acceptances.
fn proposers(keys: u64, pending: u64, all: u64) -> (Side, Side) {
    let (mut theirs, mut ours) = (Side::default(), Side::default());
    let mut party = Proposer::new(TIMEOUT, ACCEPTORS.iter().map(|a| a.to_string()).collect());
    let places = pending as usize;
    let (mut area, mut sent) = (vec![0u8; port::area_bytes(places)], vec![0u8; port::proposer_sent(places)]);
    port::proposer_start(&mut area, places, TIMEOUT, &ACCEPTORS).expect("the start");
    let mut done = 0;
    while done < all {
        let batch: Vec<(u64, u64)> = (done..(done + BATCH).min(all)).map(|i| step(i, pending)).collect();
        let messages: Vec<(String, Rpc)> = batch
            .iter()
            .map(|&(s, n)| match s {
                0 => ("9".to_string(), Rpc::ClientRequest(n, Req::Set(key(n % keys), value(n)))),
                1 | 2 => (
                    s.to_string(),
                    Rpc::ProposeRes { req_ballot: Ballot(n), last_accepted_ballot: Ballot(0), last_accepted_value: None, res: Ok(()) },
                ),
                _ => ((s - 2).to_string(), Rpc::AcceptRes(Ballot(n), Ok(()))),
            })
            .collect();
        let bytes: Vec<(u16, port::Message, Vec<u8>, Vec<u8>)> = batch
            .iter()
            .map(|&(s, n)| match s {
                0 => (9, port::Message { kind: port::CLIENT_REQUEST, number: n, request: port::SET, ..Default::default() }, key(n % keys), value(n)),
                1 | 2 => (s as u16, port::Message { kind: port::PROPOSE_RES, number: n, ..Default::default() }, vec![], vec![]),
                _ => (s as u16 - 2, port::Message { kind: port::ACCEPT_RES, number: n, ..Default::default() }, vec![], vec![]),
            })
            .collect();
        let from = Instant::now();
        for (peer, rpc) in messages {
            theirs.answers = crate_sum(theirs.answers, &party.receive(UNIX_EPOCH, peer, rpc));
        }
        theirs.time += from.elapsed();
        let from = Instant::now();
        for (peer, m, k, v) in &bytes {
            let b = port::Bytes { key: k, value: v, ..Default::default() };
            ours.answers = port_sum(ours.answers, &port::proposer_receive(&mut area, places, *peer, 0, m, b, &mut sent));
        }
        ours.time += from.elapsed();
        done += batch.len() as u64;
        progress(&format!("proposers, {} keys, {} pending", keys, pending), done, all);
    }
    eprintln!();
    // outside the measured time: a tick in time tells nobody, and one behind it tells the clients of all that is left
    for at in [TIMEOUT, TIMEOUT + 1] {
        theirs.answers = mixed(theirs.answers, party.tick(UNIX_EPOCH + Duration::from_millis(at)).len() as u64);
        ours.answers = mixed(ours.answers, port::proposer_tick(&mut area, places, at, &mut sent).expect("a tick").rows);
    }
    (theirs, ours)
}

fn row(what: &str, all: u64, (theirs, ours): (Side, Side)) {
    assert_eq!(theirs.answers, ours.answers, "{}: the answers differ", what);
    let each = |s: Side| s.time.as_nanos() as f64 / all as f64 / 1000.0;
    println!("| {} | {} | {:.2} | {:.2} | {:.2} |", what, all, each(theirs), each(ours), each(ours) / each(theirs));
}

pub fn run() {
    let words: Vec<u64> = std::env::args().skip(1).map(|w| w.parse().expect("bench MESSAGES [MESSAGES OVER 1,024 KEYS]")).collect();
    let all = words.first().copied().unwrap_or(1_000_000);
    let most = words.get(1).copied().unwrap_or(all);
    println!("| What | Messages | Crate, µs a message | Port, µs a message | Ratio |");
    println!("|---|---|---|---|---|");
    for &keys in &[1, 16, 64, 1024] {
        let n = if keys == 1024 { most } else { all };
        row(&format!("acceptors, {} keys", keys), n, acceptors(keys, n));
    }
    for &(keys, pending) in &[(1, 1), (16, 1), (64, 1), (1024, 1), (64, 8), (64, 32)] {
        row(&format!("proposers, {} keys, {} pending", keys, pending), all, proposers(keys, pending, all));
    }
}
