//! Mirkaspel's acceptor and proposer for Rust: safe functions over libmirkaspel.a (`tests/build-library`, x86-64), which is to be linked
//! (`-l static=mirkaspel`). include/mirkaspel.h says what each number, area and refusal is. The slices make sure of what that header asks of
//! a caller: pointers that aren't null, lengths that are true, areas that don't overlap. Any bytes and numbers may be passed.
#![allow(dead_code)]

/// A message without its bytes.
#[repr(C)]
#[derive(Clone, Copy, Debug, Default, PartialEq, Eq)]
pub struct Message {
    pub kind: u64,
    pub number: u64,
    pub request: u64,
    pub value: u64,
    pub other: u64,
    pub accepted: u64,
    pub result: u64,
    pub last: u64,
}

/// What is to be sent.
#[repr(C)]
#[derive(Clone, Copy, Debug, Default, PartialEq, Eq)]
pub struct Answer {
    pub kind: u64,
    pub to: u64,
    pub entries: u64,
    pub rows: u64,
    pub value_len: u64,
    pub key_len: u64,
    pub message: Message,
}

pub const CLIENT_REQUEST: u64 = 1;
pub const CLIENT_RESPONSE: u64 = 2;
pub const SET_ACCEPT_ACCEPTORS: u64 = 3;
pub const SET_PROPOSE_ACCEPTORS: u64 = 4;
pub const PROPOSE_REQ: u64 = 5;
pub const PROPOSE_RES: u64 = 6;
pub const ACCEPT_REQ: u64 = 7;
pub const ACCEPT_RES: u64 = 8;

pub const GET: u64 = 1;
pub const DEL: u64 = 2;
pub const SET: u64 = 3;
pub const CAS: u64 = 4;

pub const OK: u64 = 0;

pub const NOTHING: u64 = 0;
pub const MESSAGE: u64 = 1;
pub const BROADCAST: u64 = 2;
pub const TIMEOUTS: u64 = 3;

/// The bytes of an acceptor's table of that many registers.
pub const fn table_bytes(registers: usize) -> usize {
    512 * registers
}

/// The bytes of the area into which an acceptor puts the value of its answer.
pub const ACCEPTOR_SENT: usize = 256;

/// The bytes of a proposer's area of that many pending requests.
pub const fn area_bytes(places: usize) -> usize {
    80 + 976 * places
}

/// The bytes of the area into which a proposer puts the bytes of its answer.
pub const fn proposer_sent(places: usize) -> usize {
    350 + 10 * places
}

/// The bytes that a message carries; what it has no use for is empty.
#[derive(Clone, Copy, Default)]
pub struct Bytes<'a> {
    pub key: &'a [u8],
    pub value: &'a [u8],
    pub other: &'a [u8],
    pub list: &'a [u16],
}

/// A refusal of document 01, by its number.
#[derive(Clone, Copy, Debug, PartialEq, Eq)]
pub struct Refused(pub u8);

extern "C" {
    fn mirkaspel_acceptor_receive(
        table: *mut u8, table_len: usize, registers: usize, from: u16, message: *const Message, key: *const u8, key_len: usize,
        value: *const u8, value_len: usize, other: *const u8, other_len: usize, list: *const u16, list_len: usize, sent: *mut u8,
        sent_len: usize, answer: *mut Answer,
    ) -> u8;
    fn mirkaspel_proposer_start(area: *mut u8, area_len: usize, places: usize, timeout: u64, list: *const u16, list_len: usize) -> u8;
    fn mirkaspel_proposer_receive(
        area: *mut u8, area_len: usize, places: usize, from: u16, at: u64, message: *const Message, key: *const u8, key_len: usize,
        value: *const u8, value_len: usize, other: *const u8, other_len: usize, list: *const u16, list_len: usize, sent: *mut u8,
        sent_len: usize, answer: *mut Answer,
    ) -> u8;
    fn mirkaspel_proposer_tick(
        area: *mut u8, area_len: usize, places: usize, t: u64, sent: *mut u8, sent_len: usize, answer: *mut Answer,
    ) -> u8;
}

fn told(refusal: u8, answer: Answer) -> Result<Answer, Refused> {
    if refusal == 0 { Ok(answer) } else { Err(Refused(refusal)) }
}

/// A message at an acceptor.
pub fn acceptor_receive(
    table: &mut [u8], registers: usize, from: u16, message: &Message, bytes: Bytes, sent: &mut [u8],
) -> Result<Answer, Refused> {
    let mut answer = Answer::default();
    let refusal = unsafe {
        mirkaspel_acceptor_receive(
            table.as_mut_ptr(), table.len(), registers, from, message, bytes.key.as_ptr(), bytes.key.len(), bytes.value.as_ptr(),
            bytes.value.len(), bytes.other.as_ptr(), bytes.other.len(), bytes.list.as_ptr(), bytes.list.len(), sent.as_mut_ptr(),
            sent.len(), &mut answer,
        )
    };
    told(refusal, answer)
}

/// A proposer's start.
pub fn proposer_start(area: &mut [u8], places: usize, timeout: u64, list: &[u16]) -> Result<(), Refused> {
    let refusal = unsafe { mirkaspel_proposer_start(area.as_mut_ptr(), area.len(), places, timeout, list.as_ptr(), list.len()) };
    if refusal == 0 { Ok(()) } else { Err(Refused(refusal)) }
}

/// A message at a proposer.
pub fn proposer_receive(
    area: &mut [u8], places: usize, from: u16, at: u64, message: &Message, bytes: Bytes, sent: &mut [u8],
) -> Result<Answer, Refused> {
    let mut answer = Answer::default();
    let refusal = unsafe {
        mirkaspel_proposer_receive(
            area.as_mut_ptr(), area.len(), places, from, at, message, bytes.key.as_ptr(), bytes.key.len(), bytes.value.as_ptr(),
            bytes.value.len(), bytes.other.as_ptr(), bytes.other.len(), bytes.list.as_ptr(), bytes.list.len(), sent.as_mut_ptr(),
            sent.len(), &mut answer,
        )
    };
    told(refusal, answer)
}

/// A tick at a proposer.
pub fn proposer_tick(area: &mut [u8], places: usize, t: u64, sent: &mut [u8]) -> Result<Answer, Refused> {
    let mut answer = Answer::default();
    let refusal = unsafe {
        mirkaspel_proposer_tick(area.as_mut_ptr(), area.len(), places, t, sent.as_mut_ptr(), sent.len(), &mut answer)
    };
    told(refusal, answer)
}
