// Runs a script (docs/SCRIPT.md) through the crate's acceptor and proposer and writes what the port must write. Called with `plant SEED
// STEPS` it runs a whole plant of the crate's parties and writes what each of them was given as a script; with `proposer SEED STEPS` it
// writes a random script for proposers, one after the other, choosing what is likely to meet a pending request. It stands inside a copy
// of the crate, because `Ballot`'s field is private. A panic of the crate is the refusal that 01 gives in its place, told by the panic's own
// words; refusals 1, 2, 4 and 11, which have no counterpart in the crate, are 01's rules: 2 for a byte that 01 wants zero, the rest of it is
// tests/damaged-areas' work.
use super::*;
use std::cell::RefCell;
use std::collections::HashSet;
use std::io::{BufRead, Write};
use std::panic::{catch_unwind, AssertUnwindSafe};
use std::time::{Duration, SystemTime, UNIX_EPOCH};

const KEY_MOST: usize = 64;
const VALUE_MOST: usize = 256;
const LIST_MOST: usize = 15;
const PENDING_MOST: usize = 32;
const REGISTERS_MOST: usize = 1024;

fn bytes(w: &str) -> Vec<u8> {
    let h = w.strip_prefix('x').expect("bytes begin with x");
    (0..h.len() / 2).map(|i| u8::from_str_radix(&h[2 * i..2 * i + 2], 16).unwrap()).collect()
}

fn hex(b: &[u8]) -> String {
    let mut s = String::from("x");
    for x in b {
        s.push_str(&format!("{:02x}", x));
    }
    s
}

fn opt(w: &str) -> Option<Vec<u8>> {
    if w == "none" { None } else { Some(bytes(w)) }
}

fn show_opt(o: &Option<Vec<u8>>) -> String {
    o.as_ref().map_or("none".to_string(), |v| hex(v))
}

fn list(w: &str) -> Vec<String> {
    if w == "-" { vec![] } else { w.split(',').map(|s| s.to_string()).collect() }
}

fn error(w: &[&str]) -> Error {
    match w[0] {
        "ProposalRejected" => Error::ProposalRejected { last: Ballot(w[1].parse().unwrap()) },
        "AcceptRejected" => Error::AcceptRejected { last: Ballot(w[1].parse().unwrap()) },
        "CasFailed" => Error::CasFailed(opt(w[1])),
        "Timeout" => Error::Timeout,
        e => panic!("no error {}", e),
    }
}

fn show_error(e: &Error) -> String {
    match e {
        Error::ProposalRejected { last } => format!("ProposalRejected {}", last.0),
        Error::AcceptRejected { last } => format!("AcceptRejected {}", last.0),
        Error::CasFailed(v) => format!("CasFailed {}", show_opt(v)),
        Error::Timeout => "Timeout".to_string(),
    }
}

fn result(w: &[&str]) -> Result<(), Error> {
    if w[0] == "Ok" { Ok(()) } else { Err(error(&w[1..])) }
}

fn show_result(r: &Result<(), Error>) -> String {
    match r {
        Ok(()) => "Ok".to_string(),
        Err(e) => format!("Err {}", show_error(e)),
    }
}

fn message(w: &[&str]) -> Rpc {
    match w[0] {
        "ClientRequest" => {
            let key = bytes(w[3]);
            let req = match w[2] {
                "Get" => Req::Get(key),
                "Del" => Req::Del(key),
                "Set" => Req::Set(key, bytes(w[4])),
                "Cas" => Req::Cas(key, opt(w[4]), opt(w[5])),
                r => panic!("no request {}", r),
            };
            ClientRequest(w[1].parse().unwrap(), req)
        }
        "ClientResponse" => ClientResponse(
            w[1].parse().unwrap(),
            if w[2] == "Ok" { Ok(opt(w[3])) } else { Err(error(&w[3..])) },
        ),
        "SetAcceptAcceptors" => SetAcceptAcceptors(list(w[1])),
        "SetProposeAcceptors" => SetProposeAcceptors(list(w[1])),
        "ProposeReq" => ProposeReq(Ballot(w[1].parse().unwrap()), bytes(w[2])),
        "ProposeRes" => ProposeRes {
            req_ballot: Ballot(w[1].parse().unwrap()),
            last_accepted_ballot: Ballot(w[2].parse().unwrap()),
            last_accepted_value: opt(w[3]),
            res: result(&w[4..]),
        },
        "AcceptReq" => AcceptReq(Ballot(w[1].parse().unwrap()), bytes(w[2]), opt(w[3])),
        "AcceptRes" => AcceptRes(Ballot(w[1].parse().unwrap()), result(&w[2..])),
        m => panic!("no message {}", m),
    }
}

fn show_request(r: &Req) -> String {
    match r {
        Req::Get(k) => format!("Get {}", hex(k)),
        Req::Del(k) => format!("Del {}", hex(k)),
        Req::Set(k, v) => format!("Set {} {}", hex(k), hex(v)),
        Req::Cas(k, o, n) => format!("Cas {} {} {}", hex(k), show_opt(o), show_opt(n)),
    }
}

fn show_list(l: &[String]) -> String {
    if l.is_empty() { "-".to_string() } else { l.join(",") }
}

fn show(m: &Rpc) -> String {
    match m {
        ClientRequest(id, r) => format!("ClientRequest {} {}", id, show_request(r)),
        ClientResponse(id, Ok(v)) => format!("ClientResponse {} Ok {}", id, show_opt(v)),
        ClientResponse(id, Err(e)) => format!("ClientResponse {} Err {}", id, show_error(e)),
        SetAcceptAcceptors(l) => format!("SetAcceptAcceptors {}", show_list(l)),
        SetProposeAcceptors(l) => format!("SetProposeAcceptors {}", show_list(l)),
        ProposeReq(b, k) => format!("ProposeReq {} {}", b.0, hex(k)),
        AcceptReq(b, k, v) => format!("AcceptReq {} {} {}", b.0, hex(k), show_opt(v)),
        ProposeRes { req_ballot, last_accepted_ballot, last_accepted_value, res } => format!(
            "ProposeRes {} {} {} {}",
            req_ballot.0,
            last_accepted_ballot.0,
            show_opt(last_accepted_value),
            show_result(res)
        ),
        AcceptRes(b, r) => format!("AcceptRes {} {}", b.0, show_result(r)),
    }
}

// 01's refusal 4.
fn over_limit(from: &str, m: &Rpc) -> bool {
    let key = |k: &Vec<u8>| KEY_MOST < k.len();
    let value = |v: &Vec<u8>| VALUE_MOST < v.len();
    let option = |o: &Option<Vec<u8>>| o.as_ref().map_or(false, |v| VALUE_MOST < v.len());
    let err = |e: &Error| if let Error::CasFailed(o) = e { o.as_ref().map_or(false, |v| VALUE_MOST < v.len()) } else { false };
    let entries = |l: &Vec<String>| LIST_MOST < l.len() || l.iter().any(|a| a == "0");
    from == "0"
        || match m {
            ClientRequest(_, Req::Get(k)) | ClientRequest(_, Req::Del(k)) => key(k),
            ClientRequest(_, Req::Set(k, v)) => key(k) || value(v),
            ClientRequest(_, Req::Cas(k, o, n)) => key(k) || option(o) || option(n),
            ClientResponse(_, Ok(o)) => option(o),
            ClientResponse(_, Err(e)) => err(e),
            SetAcceptAcceptors(l) | SetProposeAcceptors(l) => entries(l),
            ProposeReq(_, k) => key(k),
            ProposeRes { last_accepted_value, res, .. } => option(last_accepted_value) || res.as_ref().err().map_or(false, |e| err(e)),
            AcceptReq(_, k, o) => key(k) || option(o),
            AcceptRes(_, r) => r.as_ref().err().map_or(false, |e| err(e)),
        }
}

thread_local! {
    // what the last panic said
    static SAID: RefCell<String> = RefCell::new(String::new());
}

// The refusal that stands for a panic, by its own words.
fn refusal() -> String {
    let said = SAID.with(|s| s.borrow().clone());
    let known = [
        ("unhandled rpc", "refused 3 WrongKind"),
        ("Acceptor got non-propose/accept", "refused 3 WrongKind"),
        ("went back in time", "refused 5 FirstPhase"),
        ("got a response from this peer already", "refused 6 Repeated"),
        ("someone we didn't send", "refused 7 NotWaitedFor"),
        ("got unhandled ProposeRes", "refused 8 ForeignError"),
        ("got unhandled AcceptRes", "refused 8 ForeignError"),
        ("somehow the acceptor promised us", "refused 9 PromisedAbove"),
        ("attempt to add with overflow", "refused 10 CounterUsedUp"),
        ("SystemTimeError", "refused 12 ClockBack"),
    ];
    for (words, refusal) in known.iter() {
        if said.contains(words) {
            return refusal.to_string();
        }
    }
    format!("an unknown panic: {}", said)
}

fn at(ms: u64) -> SystemTime {
    UNIX_EPOCH + Duration::from_millis(ms)
}

enum Party {
    Acceptor { acceptor: Acceptor<MemStorage>, taken: HashSet<Vec<u8>>, registers: usize },
    Proposer { proposer: Proposer, places: usize },
}

// What is lent to a party: capacity, bytes of its table or area, bytes of its answer area; and whether a byte that must be zero is not.
#[derive(Clone, Copy)]
struct Lent {
    proposer: bool,
    capacity: usize,
    bytes: usize,
    answer: usize,
    damaged: bool,
}

impl Lent {
    fn acceptor(registers: usize) -> Lent {
        Lent { proposer: false, capacity: registers, bytes: 512 * registers, answer: 256, damaged: false }
    }

    fn proposer(places: usize) -> Lent {
        Lent { proposer: true, capacity: places, bytes: 80 + 976 * places, answer: 350 + 10 * places, damaged: false }
    }

    fn sized(&self) -> bool {
        let own = if self.proposer { Lent::proposer(self.capacity) } else { Lent::acceptor(self.capacity) };
        let most = if self.proposer { PENDING_MOST } else { REGISTERS_MOST };
        1 <= self.capacity && self.capacity <= most && self.bytes == own.bytes && self.answer == own.answer
    }

    // Byte 3 of any block, and byte 18 of a proposer's area: 01 and docs/LAYOUT.md want them zero.
    fn poke(&mut self, at: usize, b: &[u8]) {
        assert!(b.len() == 1 && if self.proposer { at == 18 } else { at % 512 == 3 && at < self.bytes }, "a poke that the harness doesn't know");
        self.damaged = b[0] != 0;
    }

    // Refusals 1 and 2, before all others.
    fn refusal(&self) -> Option<String> {
        if !self.sized() {
            return Some("refused 1 AreaSize".to_string());
        }
        if self.damaged { Some("refused 2 Damaged".to_string()) } else { None }
    }
}

// What a party sent, as one answer of 01.
fn answer(sends: Vec<(String, Rpc)>) -> String {
    if sends.is_empty() {
        return "nothing".to_string();
    }
    match &sends[0].1 {
        ProposeReq(..) | AcceptReq(..) => {
            assert!(sends.iter().all(|s| s.1 == sends[0].1));
            let entries: Vec<String> = sends.iter().map(|s| s.0.clone()).collect();
            format!("each {} {}", show_list(&entries), show(&sends[0].1))
        }
        m => {
            assert_eq!(sends.len(), 1);
            format!("to {} {}", sends[0].0, show(m))
        }
    }
}

impl Party {
    fn acceptor(registers: usize) -> Party {
        Party::Acceptor { acceptor: Acceptor::default(), taken: HashSet::new(), registers }
    }

    // A start, refused where 01 says; a party that was refused its start is none.
    fn proposer(places: usize, timeout: u64, list: Vec<String>) -> (Option<Party>, String) {
        if places < 1 || PENDING_MOST < places {
            return (None, "refused 1 AreaSize".to_string());
        }
        if LIST_MOST < list.len() || list.iter().any(|a| a == "0") {
            return (None, "refused 4 OverLimit".to_string());
        }
        (Some(Party::Proposer { proposer: Proposer::new(timeout, list), places }), "nothing".to_string())
    }

    // Whether a message's kind is for this party: refusal 4 comes after 3.
    fn takes(&self, m: &Rpc) -> bool {
        match (self, m) {
            (Party::Acceptor { .. }, ProposeReq(..)) | (Party::Acceptor { .. }, AcceptReq(..)) => true,
            (Party::Proposer { .. }, ClientRequest(..)) | (Party::Proposer { .. }, SetAcceptAcceptors(_)) => true,
            (Party::Proposer { .. }, SetProposeAcceptors(_)) | (Party::Proposer { .. }, ProposeRes { .. }) => true,
            (Party::Proposer { .. }, AcceptRes(..)) => true,
            _ => false,
        }
    }

    // Refusal 11: an unknown key needs a block for any acceptance and for a proposal above ballot 0; a client's request needs a place.
    fn no_room(&self, m: &Rpc) -> bool {
        match (self, m) {
            (Party::Acceptor { taken, registers, .. }, ProposeReq(b, k)) => taken.len() == *registers && !taken.contains(k) && b.0 > 0,
            (Party::Acceptor { taken, registers, .. }, AcceptReq(_, k, _)) => taken.len() == *registers && !taken.contains(k),
            (Party::Proposer { proposer, places }, ClientRequest(..)) => proposer.pending() == *places,
            _ => false,
        }
    }

    // The messages that a party sends, or its refusal. After a panic, and after a refusal of 01's own, its state is put back.
    fn receive(&mut self, now: u64, from: &str, m: Rpc) -> Result<Vec<(String, Rpc)>, String> {
        if self.takes(&m) && over_limit(from, &m) {
            return Err("refused 4 OverLimit".to_string());
        }
        let no_room = self.no_room(&m);
        match self {
            Party::Acceptor { acceptor, taken, .. } => {
                if no_room {
                    return Err("refused 11 NoRoom".to_string());
                }
                let before = acceptor.clone();
                let sent = m.clone();
                match catch_unwind(AssertUnwindSafe(|| acceptor.receive(at(now), from.to_string(), m))) {
                    Err(_) => {
                        *acceptor = before;
                        Err(refusal())
                    }
                    Ok(sends) => {
                        match &sent {
                            ProposeReq(b, k) if b.0 > 0 => {
                                taken.insert(k.clone());
                            }
                            AcceptReq(_, k, _) => {
                                taken.insert(k.clone());
                            }
                            _ => {}
                        }
                        Ok(sends)
                    }
                }
            }
            Party::Proposer { proposer, .. } => {
                let before = proposer.clone();
                match catch_unwind(AssertUnwindSafe(|| proposer.receive(at(now), from.to_string(), m))) {
                    Err(_) => {
                        *proposer = before;
                        Err(refusal())
                    }
                    // 10 comes before 11
                    Ok(_) if no_room => {
                        *proposer = before;
                        Err("refused 11 NoRoom".to_string())
                    }
                    Ok(sends) => Ok(sends),
                }
            }
        }
    }

    fn tick(&mut self, now: u64) -> Result<Vec<(String, Rpc)>, String> {
        match self {
            Party::Acceptor { acceptor, .. } => Ok(acceptor.tick(at(now))),
            Party::Proposer { proposer, .. } => {
                let before = proposer.clone();
                match catch_unwind(AssertUnwindSafe(|| proposer.tick(at(now)))) {
                    Err(_) => {
                        *proposer = before;
                        Err(refusal())
                    }
                    Ok(sends) => Ok(sends),
                }
            }
        }
    }
}

fn ticked(sends: Vec<(String, Rpc)>) -> String {
    if sends.is_empty() {
        return "nothing".to_string();
    }
    let mut rows = String::from("timeouts");
    for (to, m) in &sends {
        match m {
            ClientResponse(id, Err(Error::Timeout)) => rows.push_str(&format!(" {}:{}", to, id)),
            m => panic!("a tick does not send {:?}", m),
        }
    }
    rows
}

fn run_script() {
    let stdin = std::io::stdin();
    let out = std::io::stdout();
    let mut out = std::io::BufWriter::new(out.lock());
    let mut party: Option<Party> = None;
    let mut lent = Lent::acceptor(0);
    let mut clock = 0;
    for line in stdin.lock().lines() {
        let line = line.unwrap();
        if line.is_empty() || line.starts_with('#') {
            continue;
        }
        let w: Vec<&str> = line.split(' ').collect();
        match w[0] {
            "acceptor" => {
                lent = Lent::acceptor(w[1].parse().unwrap());
                party = Some(Party::acceptor(lent.capacity));
            }
            "proposer" => {
                lent = Lent::proposer(w[1].parse().unwrap());
                let (p, answer) = Party::proposer(lent.capacity, w[2].parse().unwrap(), list(w[3]));
                party = p;
                writeln!(out, "{}", answer).unwrap();
            }
            "clock" => clock = w[1].parse().unwrap(),
            "lend" => {
                lent.capacity = w[1].parse().unwrap();
                lent.bytes = w[2].parse().unwrap();
                lent.answer = w[3].parse().unwrap();
            }
            "poke" => lent.poke(w[1].parse().unwrap(), &bytes(w[2])),
            "tick" => {
                // an acceptor's tick lends no table
                let refused = if lent.proposer { lent.refusal() } else { None };
                let told = refused.map_or_else(|| party.as_mut().unwrap().tick(w[1].parse().unwrap()), Err);
                writeln!(out, "{}", told.map_or_else(|r| r, ticked)).unwrap();
            }
            from => {
                let told = lent.refusal().map_or_else(|| party.as_mut().unwrap().receive(clock, from, message(&w[1..])), Err);
                writeln!(out, "{}", told.map_or_else(|r| r, answer)).unwrap();
            }
        }
    }
}

// ---- a plant

struct Random(u64);

impl Random {
    fn below(&mut self, n: u64) -> u64 {
        self.0 ^= self.0 << 13;
        self.0 ^= self.0 >> 7;
        self.0 ^= self.0 << 17;
        self.0 % n
    }
}

struct Frame {
    from: usize,
    to: usize,
    message: Rpc,
}

// Several proposers and acceptors of the crate, and a network that loses, repeats and reorders. Addresses are 1 to the number of parties;
// clients stand behind them. What each party is given is kept as its script.
fn run_plant(seed: u64, steps: u64) {
    let mut r = Random(seed.wrapping_mul(0x9E3779B97F4A7C15) | 1);
    let proposers = 2 + r.below(2) as usize;
    let acceptors = 3 + r.below(3) as usize;
    let n = proposers + acceptors;
    let client = |i: usize| (n + 1 + i).to_string();
    let mut members: Vec<String> = (proposers + 1..=n).map(|a| a.to_string()).collect();
    // one set in every list, in any order and with repeats
    let mut shuffled = |r: &mut Random| {
        for i in (1..members.len()).rev() {
            members.swap(i, r.below(i as u64 + 1) as usize);
        }
        let mut l = members.clone();
        if r.below(3) == 0 {
            l.push(members[0].clone());
        }
        l
    };
    let timeout = 20 + r.below(60);
    let mut parties: Vec<Party> = vec![];
    let mut scripts: Vec<Vec<String>> = vec![];
    for i in 0..n {
        if i < proposers {
            let places = 2 + r.below(6) as usize;
            let l = shuffled(&mut r);
            scripts.push(vec![format!("proposer {} {} {}", places, timeout, show_list(&l))]);
            parties.push(Party::proposer(places, timeout, l).0.unwrap());
        } else {
            scripts.push(vec!["acceptor 4".to_string()]);
            parties.push(Party::acceptor(4));
        }
    }
    let mut net: Vec<Frame> = vec![];
    let mut now = 0;
    for step in 0..steps {
        if r.below(4) == 0 {
            now += r.below(9);
        }
        let x = r.below(100);
        if x < 12 || net.is_empty() {
            let to = r.below(proposers as u64) as usize;
            let key = vec![r.below(3) as u8];
            let value = |r: &mut Random| if r.below(4) == 0 { None } else { Some(vec![r.below(4) as u8]) };
            let req = match r.below(5) {
                0 => Req::Get(key),
                1 => Req::Del(key),
                2 => Req::Set(key, vec![r.below(4) as u8]),
                _ => Req::Cas(key, value(&mut r), value(&mut r)),
            };
            give(&mut parties, &mut scripts, &mut net, n, now, to, &client(r.below(3) as usize), ClientRequest(step, req));
        } else if x < 16 {
            let to = r.below(proposers as u64) as usize;
            let l = shuffled(&mut r);
            let m = if r.below(2) == 0 { SetAcceptAcceptors(l) } else { SetProposeAcceptors(l) };
            give(&mut parties, &mut scripts, &mut net, n, now, to, &client(0), m);
        } else if x < 22 {
            let to = r.below(n as u64) as usize;
            let t = if r.below(8) == 0 { now.saturating_sub(r.below(40)) } else { now };
            scripts[to].push(format!("tick {}", t));
            let _ = parties[to].tick(t);
        } else {
            let i = r.below(net.len() as u64) as usize;
            let lost = r.below(12) == 0;
            let repeated = r.below(10) == 0;
            let (from, to, m) = (net[i].from, net[i].to, net[i].message.clone());
            if lost || !repeated {
                net.swap_remove(i);
            }
            if !lost {
                give(&mut parties, &mut scripts, &mut net, n, now, to, &(from + 1).to_string(), m);
            }
        }
    }
    for s in scripts {
        for l in s {
            println!("{}", l);
        }
    }
}

fn give(parties: &mut [Party], scripts: &mut [Vec<String>], net: &mut Vec<Frame>, n: usize, now: u64, to: usize, from: &str, m: Rpc) {
    scripts[to].push(format!("clock {}", now));
    scripts[to].push(format!("{} {}", from, show(&m)));
    if let Ok(sends) = parties[to].receive(now, from, m) {
        for (a, message) in sends {
            let a: usize = a.parse().unwrap();
            if a <= n {
                net.push(Frame { from: to, to: a - 1, message });
            }
        }
    }
}

// ---- random scripts for proposers

fn pick<T: Clone>(r: &mut Random, l: &[T]) -> T {
    l[r.below(l.len() as u64) as usize].clone()
}

fn some_number(r: &mut Random) -> u64 {
    match r.below(8) {
        0 => pick(r, &[0, 1, 255, 256, 1 << 32, u64::MAX - 1, u64::MAX]),
        _ => r.below(12),
    }
}

fn some_bytes(r: &mut Random, sizes: &[usize]) -> Vec<u8> {
    let n = pick(r, sizes);
    let b = r.below(3) as u8;
    vec![b; n]
}

fn some_key(r: &mut Random) -> Vec<u8> {
    if r.below(25) == 0 { some_bytes(r, &[64, 65]) } else { some_bytes(r, &[0, 1, 2]) }
}

fn some_value(r: &mut Random) -> Vec<u8> {
    if r.below(25) == 0 { some_bytes(r, &[255, 256, 257]) } else { some_bytes(r, &[0, 1]) }
}

fn some_option(r: &mut Random) -> Option<Vec<u8>> {
    if r.below(3) == 0 { None } else { Some(some_value(r)) }
}

fn some_address(r: &mut Random) -> String {
    if r.below(20) == 0 { pick(r, &["0", "1", "255", "256", "65535"]).to_string() } else { (1 + r.below(7)).to_string() }
}

fn some_list(r: &mut Random) -> Vec<String> {
    let n = if r.below(15) == 0 { pick(r, &[0, 1, 15, 16]) } else { pick(r, &[1, 2, 3, 3, 3, 4, 5]) };
    (0..n).map(|_| if r.below(60) == 0 { "0".to_string() } else { (1 + r.below(6)).to_string() }).collect()
}

fn some_request(r: &mut Random) -> Req {
    let key = some_key(r);
    match r.below(6) {
        0 => Req::Get(key),
        1 => Req::Del(key),
        2 => Req::Set(key, some_value(r)),
        _ => {
            let old = some_option(r);
            Req::Cas(key, old, some_option(r))
        }
    }
}

// A `last`, seldom one that uses the counter up.
fn some_last(r: &mut Random, counter: u64) -> Ballot {
    Ballot(match r.below(40) {
        0 => u64::MAX,
        1 => u64::MAX - 1,
        2..=9 => some_number(r).min(1 << 40),
        _ => counter.saturating_add(r.below(4)),
    })
}

fn some_error(r: &mut Random, counter: u64) -> Error {
    match r.below(4) {
        0 => Error::ProposalRejected { last: some_last(r, counter) },
        1 => Error::AcceptRejected { last: some_last(r, counter) },
        2 => Error::CasFailed(some_option(r)),
        _ => Error::Timeout,
    }
}

fn some_answer(r: &mut Random, proposer: &Proposer) -> (String, Rpc) {
    let asked = proposer.asked();
    let counter = proposer.counter();
    let (ballot, first, waited) = if asked.is_empty() || r.below(15) == 0 { (some_number(r), r.below(2) == 0, vec![]) } else { pick(r, &asked) };
    let from = if waited.is_empty() || r.below(8) == 0 { some_address(r) } else { pick(r, &waited) };
    let wrong = r.below(20);
    let first = if wrong == 0 { !first } else { first };
    let own = if first { Error::ProposalRejected { last: some_last(r, counter) } } else { Error::AcceptRejected { last: some_last(r, counter) } };
    let res = if wrong == 1 { Err(some_error(r, counter)) } else if r.below(5) < 2 { Err(own) } else { Ok(()) };
    if first {
        let accepted = match r.below(30) {
            0 => ballot,
            1 => ballot.saturating_add(2),
            2..=12 => some_number(r).min(ballot),
            _ => 0,
        };
        let value = some_option(r);
        (from, ProposeRes { req_ballot: Ballot(ballot), last_accepted_ballot: Ballot(accepted), last_accepted_value: value, res })
    } else {
        (from, AcceptRes(Ballot(ballot), res))
    }
}

fn write_proposers(seed: u64, steps: u64) {
    let mut r = Random(seed.wrapping_mul(0x9E3779B97F4A7C15) | 1);
    let mut left = steps;
    while left > 0 {
        let timeout = pick(&mut r, &[0, 1, 50, 50, 50, 1000, u64::MAX]);
        let places = if r.below(30) == 0 { pick(&mut r, &[0, 32, 33, 40]) } else { pick(&mut r, &[1, 2, 3, 4]) };
        let l = some_list(&mut r);
        println!("proposer {} {} {}", places, timeout, show_list(&l));
        left -= 1;
        let mut party = match Party::proposer(places, timeout, l).0 {
            Some(p) => p,
            None => continue,
        };
        let mut now = pick(&mut r, &[0, 100, 1000]);
        for _ in 0..20 + r.below(180) {
            if r.below(5) == 0 {
                now = (now + pick(&mut r, &[0u64, 1, 5, 20, 50, 51])).saturating_sub(pick(&mut r, &[0, 0, 0, 0, 1, 30]));
                println!("clock {}", now);
            }
            left = left.saturating_sub(1);
            // now and then the next step is on a wrong size or on a damaged area
            let lent = Lent::proposer(places);
            let wrong = match r.below(60) {
                0 => format!("lend {} {} {}", pick(&mut r, &[0, places + 1, PENDING_MOST + 1]), lent.bytes, lent.answer),
                1 => format!("lend {} {} {}", places, pick(&mut r, &[0, lent.bytes - 1, lent.bytes + 1]), lent.answer),
                2 => format!("lend {} {} {}", places, lent.bytes, pick(&mut r, &[0, lent.answer - 1, lent.answer + 1])),
                3 => "poke 18 x01".to_string(),
                _ => String::new(),
            };
            let right = if wrong.starts_with("poke") { "poke 18 x00".to_string() } else { format!("lend {} {} {}", places, lent.bytes, lent.answer) };
            if !wrong.is_empty() {
                println!("{}", wrong);
                if r.below(4) == 0 {
                    println!("tick {}", now);
                } else {
                    let (from, request) = (some_address(&mut r), some_request(&mut r));
                    println!("{} {}", from, show(&ClientRequest(7, request)));
                }
                println!("{}", right);
            }
            let x = r.below(100);
            if x < 4 {
                let t = (now + pick(&mut r, &[0u64, 1, 49, 50, 51, 52])).saturating_sub(pick(&mut r, &[0, 0, 0, 60]));
                println!("tick {}", t);
                let _ = party.tick(t);
                continue;
            }
            let (from, m) = if x < 20 {
                (some_address(&mut r), ClientRequest(r.below(99), some_request(&mut r)))
            } else if x < 23 {
                let l = some_list(&mut r);
                (some_address(&mut r), if r.below(2) == 0 { SetAcceptAcceptors(l) } else { SetProposeAcceptors(l) })
            } else if x < 26 {
                let from = some_address(&mut r);
                let ballot = Ballot(some_number(&mut r));
                match r.below(3) {
                    0 => (from, ProposeReq(ballot, some_key(&mut r))),
                    1 => (from, AcceptReq(ballot, some_key(&mut r), some_option(&mut r))),
                    _ => (from, ClientResponse(3, Ok(some_option(&mut r)))),
                }
            } else if let Party::Proposer { proposer, .. } = &party {
                some_answer(&mut r, proposer)
            } else {
                unreachable!()
            };
            println!("{} {}", from, show(&m));
            let _ = party.receive(now, &from, m);
        }
    }
}

pub fn run() {
    std::panic::set_hook(Box::new(|info| {
        let said = info.payload().downcast_ref::<String>().cloned().or_else(|| info.payload().downcast_ref::<&str>().map(|s| s.to_string()));
        SAID.with(|s| *s.borrow_mut() = said.unwrap_or_default());
    }));
    let args: Vec<String> = std::env::args().collect();
    if args.len() == 4 && args[1] == "plant" {
        run_plant(args[2].parse().unwrap(), args[3].parse().unwrap());
    } else if args.len() == 4 && args[1] == "proposer" {
        write_proposers(args[2].parse().unwrap(), args[3].parse().unwrap());
    } else {
        run_script();
    }
}
