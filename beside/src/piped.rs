//! The same functions in a process of their own (`../serve.c`), which has the archive.
//! Every call sends the lent bytes and takes back what is left in them.

use second::step::Step;
use std::io::{BufReader, BufWriter, Read as _, Write};
use std::process::{Child, ChildStdin, ChildStdout, Command, Stdio};
use std::sync::atomic::{AtomicBool, AtomicUsize, Ordering};
use std::sync::Mutex;

const GOOD: u8 = 1;
const START: u8 = 2;
const STEP: u8 = 3;
const CHECK: u8 = 4;
const WRITE: u8 = 5;
const REHEARSE: u8 = 6;

struct Pipe {
    _child: Child,
    to: BufWriter<ChildStdin>,
    from: BufReader<ChildStdout>,
}

static PIPE: Mutex<Option<Pipe>> = Mutex::new(None);
static MEASURED: AtomicBool = AtomicBool::new(false);
static DEPTH: AtomicUsize = AtomicUsize::new(0);

/// Bytes of stack that the call takes, measured by the process that makes it.
pub fn stack(made: impl FnOnce()) -> usize {
    MEASURED.store(true, Ordering::Relaxed);
    made();
    MEASURED.store(false, Ordering::Relaxed);
    DEPTH.load(Ordering::Relaxed)
}

fn opened() -> Pipe {
    let mut child = Command::new(concat!(env!("CARGO_MANIFEST_DIR"), "/served"))
        .stdin(Stdio::piped())
        .stdout(Stdio::piped())
        .spawn()
        .expect("beside/served runs");
    Pipe {
        to: BufWriter::new(child.stdin.take().expect("it is piped")),
        from: BufReader::new(child.stdout.take().expect("it is piped")),
        _child: child,
    }
}

/// What is called and its numbers, then the lengths, as `serve.c` reads them, and the
/// lent bytes.
fn request(asked: [u8; 4], value: u32, lent: &[&mut [u8]; 4]) -> Vec<u8> {
    let mut bytes = asked.to_vec();
    bytes.extend(value.to_be_bytes());
    for part in lent {
        bytes.extend((part.len() as u32).to_be_bytes());
    }
    for part in lent {
        bytes.extend_from_slice(part);
    }
    bytes
}

fn call(asked: [u8; 3], value: u32, mut lent: [&mut [u8]; 4]) -> u8 {
    let measured = u8::from(MEASURED.load(Ordering::Relaxed));
    let asked = [asked[0], asked[1], asked[2], measured];
    let mut held = PIPE.lock().expect("one call at a time");
    let pipe = held.get_or_insert_with(opened);
    let sent = pipe
        .to
        .write_all(&request(asked, value, &lent))
        .and_then(|()| pipe.to.flush());
    sent.expect("the engine takes a call");
    let mut answer = [0; 6];
    let came = pipe.from.read_exact(&mut answer);
    came.expect("the engine answers");
    for part in &mut lent {
        pipe.from.read_exact(part).expect("the engine gives back");
    }
    assert_eq!(answer[1], 0, "bytes outside the lent ones were written");
    let [number, _, a, b, c, d] = answer;
    DEPTH.store(u32::from_be_bytes([a, b, c, d]) as usize, Ordering::Relaxed);
    number
}

/// Copies of bytes that are only read, which must come back as they were.
struct Read(Vec<u8>);

impl Read {
    fn whole(self, bytes: &[u8]) {
        assert!(self.0 == bytes, "bytes that are only read were written");
    }
}

pub fn good(world: &[u8]) -> u8 {
    let mut lent = Read(world.to_vec());
    let answer = call([GOOD, 0, 0], 0, [&mut lent.0, &mut [], &mut [], &mut []]);
    lent.whole(world);
    answer
}

pub fn start(world: &mut [u8], mask: u8) -> u8 {
    call([START, mask, 0], 0, [world, &mut [], &mut [], &mut []])
}

pub fn step(world: &mut [u8], asked: Step, told: &mut [u8]) -> u8 {
    let Step { kind, id, value } = asked;
    call([STEP, kind, id], value, [world, told, &mut [], &mut []])
}

pub fn check(sheet: &[u8]) -> u8 {
    let mut lent = Read(sheet.to_vec());
    let answer = call([CHECK, 0, 0], 0, [&mut lent.0, &mut [], &mut [], &mut []]);
    lent.whole(sheet);
    answer
}

pub fn write(buffer: &mut [u8], mask: u8, kinds: &[u8], ids: &[u8], values: &[u32]) -> u8 {
    let (mut k, mut i) = (Read(kinds.to_vec()), Read(ids.to_vec()));
    let numbers: Vec<u8> = values
        .iter()
        .flat_map(|value| value.to_be_bytes())
        .collect();
    let mut v = Read(numbers.clone());
    let answer = call([WRITE, mask, 0], 0, [buffer, &mut k.0, &mut i.0, &mut v.0]);
    k.whole(kinds);
    i.whole(ids);
    v.whole(&numbers);
    answer
}

pub fn rehearse(sheet: &[u8], world: &mut [u8], out: &mut [u8], told: &mut [u8]) -> u8 {
    let mut lent = Read(sheet.to_vec());
    let answer = call([REHEARSE, 0, 0], 0, [&mut lent.0, world, out, told]);
    lent.whole(sheet);
    answer
}
