//! `oracle settle`: the program `settle` as a process. What it prints is held, byte for byte, against a text that is
//! written here from document 01's words, end of its section "Edges".

use crate::document::{settlement, Document, InRust};
use crate::kinds::witness;
use crate::random::Random;
use crate::reference::calls;
use crate::shim::hex;
use std::collections::BTreeMap;
use std::fmt;
use std::io::{self, ErrorKind, Read, Write};
use std::process::{Child, ChildStdin, Command, Stdio};
use std::sync::mpsc;
use std::thread;
use std::time::{Duration, Instant};

/// "At most 65,536 bytes in all."
const MOST: usize = 65_536;
/// A process that takes longer is ended, and has failed.
const LIMIT: Duration = Duration::from_secs(20);
const FAILURES_SHOWN: u64 = 3;

// ---- What has to be printed ----

/// The state left, or number and place.
type Answer = Result<Vec<u8>, (u64, u64)>;

/// The updated state as lines: "`tlcs` and n; per TLC `tlc`, its place in the updated list, the record in hex;
/// `remote` and `local`, each key hash and amount as 32 hex digits, highest first".
fn lines(h: u8, state: &[u8]) -> String {
    let size = 65 + usize::from(h);
    let (front, shares) = state.split_at(state.len() - 72);
    let mut text = format!("tlcs {}\n", front[0]);
    for (place, record) in front[1..].chunks(size).enumerate() {
        text += &format!("tlc {place} {}\n", hex::encode(record));
    }
    for (side, share) in ["remote", "local"].into_iter().zip(shares.chunks(36)) {
        let highest_first: Vec<u8> = share[20..].iter().rev().copied().collect();
        text += &format!("{side} {} {}\n", hex::encode(&share[..20]), hex::encode(highest_first));
    }
    text
}

fn text(h: u8, answer: &Answer) -> String {
    match answer {
        Ok(state) => lines(h, state),
        Err((number, place)) => format!("refused {number} at {place}\n"),
    }
}

/// What document 01 says, and whether the Rust can be asked. "One byte h, then the witness; at most 65,536 bytes in all,
/// else or when empty 14 at 0. Places count from the witness's first byte."
fn document(input: &[u8], most: usize) -> (Answer, bool) {
    let Some((h, witness)) = input.split_first().filter(|_| input.len() <= most) else {
        return (Err((14, 0)), false);
    };
    match settlement::update((*h).into(), witness, usize::MAX) {
        Document::Value(state) => (Ok(state), true),
        Document::Row(row, place) => (Err((row.number, place)), row.rust != InRust::Outside),
    }
}

fn h_of(input: &[u8]) -> u8 {
    input.first().copied().unwrap_or(0)
}

// ---- Inputs ----

fn fed(h: u8, witness: &[u8]) -> Vec<u8> {
    [&[h], witness].concat()
}

/// A whole witness that makes an input of `length` bytes: `n` TLCs, and unlocks of both shares behind them.
fn of_length(h: u8, n: u8, length: usize) -> Vec<u8> {
    let front = 1 + 2 + usize::from(n) * (65 + usize::from(h)) + 72;
    let rest = length - front;
    let long = (0..67)
        .find(|long| rest >= long * 99 && (rest - long * 99) % 67 == 0)
        .expect("67 and 99 have no divisor");
    let mut random = Random::of(1, "settle, a length", length as u64);
    let mut input = vec![0; length];
    random.fill(&mut input);
    (input[0], input[2]) = (h, n);
    let mut at = front;
    for unlock in 0.. {
        if at == length {
            return input;
        }
        let flag = u8::from(unlock < long);
        input[at..at + 2].copy_from_slice(&[random.pick(&[0xfe, 0xff]), flag]);
        at += if flag == 1 { 99 } else { 67 };
    }
    unreachable!("the unlocks fill the rest")
}

fn edges() -> Vec<Vec<u8>> {
    // Document 01's example first.
    let shares = [&[0x11; 20][..], &5u128.to_le_bytes(), &[0x22; 20], &7u128.to_le_bytes()].concat();
    let example = [&[20, 1, 0][..], &shares, &[0xff, 0], &[0; 65]].concat();
    let mut edges = vec![example, vec![]];
    for h in 0..=255 {
        edges.push(fed(h, &[0; 74]));
        // h alone.
        if h % 16 == 4 || h == 32 {
            edges.push(vec![h]);
        }
    }
    for h in [20, 32] {
        for length in [65_470, 65_534, 65_535, 65_536, 65_537, 65_538, 65_600, 131_072, 131_073, 200_000] {
            for n in [0, 3, 255] {
                let whole = of_length(h, n, length);
                // Its last unlock cut short by a byte; its first one of place 253, which only 255 TLCs have.
                edges.push(whole[..length - 1].to_vec());
                let mut unknown = whole.clone();
                unknown[3 + usize::from(n) * (65 + usize::from(h)) + 72] = 0xfd;
                edges.push(unknown);
                edges.push(whole);
            }
            edges.push(vec![h; length]);
        }
        // Every TLC but one settled, and every one; places 254 and 255 are the shares'.
        for n in [1u8, 2, 253, 254, 255] {
            for left in [0, 1, n / 2, n - 1, n] {
                let mut input = fed(h, &witness::counted(h.into(), n));
                for place in (0..n.min(254)).filter(|place| *place != left) {
                    input.extend([place, 0]);
                    input.extend([place; 65]);
                }
                edges.push(input);
            }
        }
    }
    let of_update = witness::edges().into_iter().filter(|i| i.h <= 255);
    edges.extend(of_update.map(|i| fed(i.h as u8, &i.witness)));
    edges
}

fn random(random: &mut Random) -> Vec<u8> {
    match random.below(16) {
        // Many TLCs, some unlocks, seldom damaged.
        0 | 1 => {
            let h = random.pick(&[20, 32]);
            let n = random.pick(&[250, 251, 252, 253, 254, 255]);
            let mut whole = witness::counted(h, n);
            random.fill(&mut whole[2..]);
            let mut ends = vec![2, whole.len() - 72, whole.len()];
            for _ in 0..random.below(40) {
                witness::push_unlock(&mut whole, random.below(256) as u8, random.pick(&[0, 1, 2]));
                ends.push(whole.len());
            }
            if random.one_in(4) {
                witness::damage(random, &mut whole, &ends);
            }
            fed(h as u8, &whole)
        }
        2 => {
            let length = random.near(MOST as u64) as usize;
            of_length(random.pick(&[20, 32]), random.below(256) as u8, length)
        }
        3..=5 => {
            let grid = witness::grid(random.below(witness::GRID));
            fed(grid.h as u8, &grid.witness)
        }
        _ => {
            let input = witness::random(random);
            fed(input.h as u8, &input.witness)
        }
    }
}

/// How an input is written: at once, or in pieces with a pause between them, so that a read ends short.
fn pieces(random: &mut Random, length: usize) -> Vec<usize> {
    if length < 2 || !random.one_in(8) {
        return vec![length];
    }
    let mut ends: Vec<usize> =
        (0..1 + random.below(4)).map(|_| 1 + random.below(length as u64 - 1) as usize).collect();
    ends.push(if random.one_in(2) { 1 } else { length });
    ends.push(length);
    ends.sort_unstable();
    ends.dedup();
    ends
}

struct Case {
    input: Vec<u8>,
    /// Where each piece ends.
    pieces: Vec<usize>,
}

fn case(edges: &[Vec<u8>], seed: u64, number: u64) -> Case {
    let mut r = Random::of(seed, "settle", number);
    let input = edges.get(number as usize).cloned().unwrap_or_else(|| random(&mut r));
    Case { pieces: pieces(&mut r, input.len()), input }
}

// ---- The process ----

pub struct Program {
    pub path: std::path::PathBuf,
    pub arguments: Vec<String>,
}

struct Ran {
    out: Vec<u8>,
    error: Vec<u8>,
    status: Option<i32>,
}

/// A program need not read what cannot change its answer, so a pipe that it closed is no fault.
fn feed(mut pipe: ChildStdin, case: &Case) -> io::Result<()> {
    let mut from = 0;
    for to in &case.pieces {
        if from > 0 {
            thread::sleep(Duration::from_micros(300));
        }
        match pipe.write_all(&case.input[from..*to]) {
            Err(e) if e.kind() == ErrorKind::BrokenPipe => return Ok(()),
            done => done?,
        }
        from = *to;
    }
    Ok(())
}

fn ended(child: &mut Child, deadline: Instant) -> Result<Option<i32>, String> {
    loop {
        match child.try_wait() {
            Ok(Some(status)) => return Ok(status.code()),
            Ok(None) if Instant::now() < deadline => thread::sleep(Duration::from_micros(50)),
            Ok(None) => return Err(format!("it did not end within {} seconds", LIMIT.as_secs())),
            Err(e) => return Err(e.to_string()),
        }
    }
}

fn run(program: &Program, case: &Case) -> Result<Ran, String> {
    let mut child = Command::new(&program.path)
        .args(&program.arguments)
        .stdin(Stdio::piped())
        .stdout(Stdio::piped())
        .stderr(Stdio::piped())
        .spawn()
        .map_err(|e| format!("it cannot be started: {e}"))?;
    let input = child.stdin.take().expect("piped");
    let outputs: [Box<dyn Read + Send>; 2] =
        [Box::new(child.stdout.take().expect("piped")), Box::new(child.stderr.take().expect("piped"))];
    let deadline = Instant::now() + LIMIT;
    thread::scope(|scope| {
        let writer = scope.spawn(|| feed(input, case));
        let (sender, receiver) = mpsc::channel();
        for (which, pipe) in outputs.into_iter().enumerate() {
            let sender = sender.clone();
            scope.spawn(move || {
                let mut bytes = vec![];
                let read = pipe.take(1 << 20).read_to_end(&mut bytes);
                // Nobody listens any more where the time was up.
                let _ = sender.send((which, read.map(|_| bytes)));
            });
        }
        let mut all = [vec![], vec![]];
        let mut outcome = Ok(());
        for _ in 0..2 {
            let left = deadline.saturating_duration_since(Instant::now());
            match receiver.recv_timeout(left) {
                Ok((which, Ok(bytes))) => all[which] = bytes,
                Ok((_, Err(e))) => outcome = Err(e.to_string()),
                Err(_) => outcome = Err(format!("it did not end within {} seconds", LIMIT.as_secs())),
            }
        }
        let status = outcome.and_then(|()| ended(&mut child, deadline));
        if status.is_err() {
            let _ = child.kill();
            let _ = child.wait();
        }
        let status = status?;
        writer.join().expect("no panic").map_err(|e| format!("standard input: {e}"))?;
        let [out, error] = all;
        Ok(Ran { out, error, status })
    })
}

// ---- Comparison ----

/// What the Rust left, or that it turned the witness down.
fn rust(input: &[u8]) -> calls::Update {
    calls::update(input[0], &input[1..])
}

/// What is wrong, if anything.
fn faults(case: &Case, ran: &Result<Ran, String>) -> Vec<String> {
    let ran = match ran {
        Ok(ran) => ran,
        Err(fault) => return vec![fault.clone()],
    };
    let (answer, with_rust) = document(&case.input, MOST);
    let mut faults = vec![];
    if ran.out != text(h_of(&case.input), &answer).into_bytes() {
        faults.push("standard output parts from document 01".to_string());
    }
    if with_rust {
        let as_rust = match rust(&case.input) {
            calls::Update::State(state) => ran.out == lines(case.input[0], &state).into_bytes(),
            calls::Update::Unread | calls::Update::Refused => ran.out.starts_with(b"refused "),
            calls::Update::Panic => false,
        };
        if !as_rust {
            faults.push("standard output parts from the Rust".to_string());
        }
    }
    if !ran.error.is_empty() {
        faults.push("standard error is not empty".to_string());
    }
    if ran.status != Some(0) {
        faults.push(
            ran.status.map_or("a signal ended it".to_string(), |code| format!("the exit status is {code}")),
        );
    }
    faults
}

fn shown(bytes: &[u8]) -> String {
    if bytes.is_empty() {
        return "    nothing\n".to_string();
    }
    let text = String::from_utf8_lossy(bytes).escape_debug().to_string();
    text.split_inclusive("\\n").map(|line| format!("    {line}\n")).collect()
}

fn show(case: &Case, ran: &Result<Ran, String>) -> String {
    let (answer, with_rust) = document(&case.input, MOST);
    let bytes = &case.input;
    let mut all =
        format!("  input, {} bytes, written up to {:?}: {}\n", bytes.len(), case.pieces, hex::encode(bytes));
    all += &format!("  document 01:\n{}", shown(text(h_of(bytes), &answer).as_bytes()));
    all += &match with_rust.then(|| rust(bytes)) {
        None => "  the Rust: not asked, outside the equality\n".to_string(),
        Some(calls::Update::State(state)) => {
            format!("  the Rust:\n{}", shown(lines(bytes[0], &state).as_bytes()))
        }
        Some(calls::Update::Unread | calls::Update::Refused) => "  the Rust: turned down\n".to_string(),
        Some(calls::Update::Panic) => "  the Rust: panics\n".to_string(),
    };
    match ran {
        Err(fault) => all += &format!("  the program: {fault}\n"),
        Ok(ran) => {
            all += &format!("  the program, exit status {:?}:\n{}", ran.status, shown(&ran.out));
            if !ran.error.is_empty() {
                all += &format!("  on standard error:\n{}", shown(&ran.error));
            }
        }
    }
    all
}

#[derive(Default)]
pub struct Tally {
    processes: u64,
    in_pieces: u64,
    /// States by their number of TLCs.
    states: BTreeMap<&'static str, u64>,
    /// Refusals by number.
    rows: BTreeMap<u64, u64>,
    /// The Rust was called too.
    with_rust: u64,
    pub failures: u64,
    time: Duration,
}

impl Tally {
    fn count(&mut self, case: &Case) {
        let (answer, with_rust) = document(&case.input, MOST);
        self.processes += 1;
        self.in_pieces += u64::from(case.pieces.len() > 1);
        self.with_rust += u64::from(with_rust);
        match answer {
            Err((number, _)) => *self.rows.entry(number).or_default() += 1,
            Ok(state) => {
                let class = match state[0] {
                    0 => "no TLCs",
                    1 => "one TLC",
                    2..=252 => "2 to 252 TLCs",
                    253.. => "253 to 255 TLCs",
                };
                *self.states.entry(class).or_default() += 1;
            }
        }
    }
}

impl fmt::Display for Tally {
    fn fmt(&self, f: &mut fmt::Formatter<'_>) -> fmt::Result {
        let list = |all: Vec<String>| all.join("; ");
        let states: u64 = self.states.values().sum();
        let rows: u64 = self.rows.values().sum();
        let seconds = self.time.as_secs_f64();
        writeln!(f, "settle: {} processes in {seconds:.1} s, {} failed", self.processes, self.failures)?;
        let classes = self.states.iter().map(|(class, count)| format!("{class}: {count}")).collect();
        writeln!(f, "  a state printed: {states} ({})", list(classes))?;
        let numbers = self.rows.iter().map(|(number, count)| format!("row {number}: {count}")).collect();
        writeln!(f, "  refused: {rows} ({})", list(numbers))?;
        writeln!(f, "  held against the Rust too: {}; written in pieces: {}", self.with_rust, self.in_pieces)
    }
}

pub struct Options {
    pub seed: u64,
    pub from: u64,
    pub rounds: u64,
    pub seconds: Option<f64>,
}

/// Runs cases. `command` is how the program is named in the command that runs a failing case alone; without it
/// failing cases are not shown.
pub fn compare(program: &Program, options: &Options, command: Option<&str>) -> Tally {
    let start = Instant::now();
    let mut tally = Tally::default();
    let edges = edges();
    for number in options.from..options.from.saturating_add(options.rounds) {
        let case = case(&edges, options.seed, number);
        let ran = run(program, &case);
        tally.count(&case);
        let faults = faults(&case, &ran);
        if !faults.is_empty() {
            tally.failures += 1;
            if let Some(path) = command {
                println!("FAILED: oracle settle --bin {path} --seed {} --case {number}", options.seed);
                println!("  because {}", faults.join(", "));
            }
            if tally.failures == FAILURES_SHOWN {
                if command.is_some() {
                    println!("settle: given up after {FAILURES_SHOWN} failing cases");
                }
                break;
            }
        }
        if options.seconds.is_some_and(|limit| start.elapsed().as_secs_f64() >= limit) {
            break;
        }
    }
    tally.time = start.elapsed();
    tally
}

/// Runs one case and prints all answers. True where they agree.
pub fn one(program: &Program, seed: u64, number: u64) -> bool {
    let case = case(&edges(), seed, number);
    let ran = run(program, &case);
    let faults = faults(&case, &ran);
    print!("settle case {number} of seed {seed}\n{}", show(&case, &ran));
    match faults.is_empty() {
        true => println!("  agreed"),
        false => println!("  because {}", faults.join(", ")),
    }
    faults.is_empty()
}

// ---- For the self test ----

/// What the first cases reach, by document 01: rows, and states by their number of TLCs.
pub fn reached(cases: u64) -> Vec<String> {
    let edges = edges();
    let mut tally = Tally::default();
    (0..cases).for_each(|number| tally.count(&case(&edges, 1, number)));
    tally.rows.keys().map(u64::to_string).chain(tally.states.keys().map(|c| c.to_string())).collect()
}

/// How many cases were picked by hand.
pub fn edge_count() -> u64 {
    edges().len() as u64
}

/// The faults that `stand_in` can have.
pub const FAULTS: &[&str] = &[
    "one hex digit is another",
    "the first line is missing",
    "the last newline is missing",
    "a newline too many",
    "two blanks between fields",
    "upper case",
    "amounts lowest byte first",
    "local before remote",
    "TLCs with another place",
    "places from the first byte of standard input",
    "65,537 bytes are taken",
    "65,536 bytes are turned down",
    "nothing for the empty input",
    "another h is taken for 20",
    "something on standard error",
    "exit status 1",
];

/// A right `settle`, made of this program's own text, or one with a fault. The self test runs it as a process.
pub fn stand_in(fault: &str) -> i32 {
    let mut input = vec![];
    if io::stdin().read_to_end(&mut input).is_err() {
        return 2;
    }
    let most = match fault {
        "65,537 bytes are taken" => MOST + 1,
        "65,536 bytes are turned down" => MOST - 1,
        _ => MOST,
    };
    if fault == "another h is taken for 20" && !matches!(h_of(&input), 20 | 32) && !input.is_empty() {
        input[0] = 20;
    }
    let (mut answer, _) = document(&input, most);
    if let (Err((_, place @ 1..)), "places from the first byte of standard input") = (&mut answer, fault) {
        *place += 1;
    }
    let right = text(h_of(&input), &answer);
    let by_line = |change: &dyn Fn(&str) -> String| right.lines().map(change).collect::<String>();
    let print = match fault {
        "one hex digit is another" => by_line(&|l| {
            if l.starts_with("local") {
                format!("{}f\n", &l[..l.len() - 1])
            } else {
                format!("{l}\n")
            }
        }),
        "the first line is missing" => {
            right.split_once('\n').map_or(String::new(), |(_, rest)| rest.to_string())
        }
        "the last newline is missing" => right.trim_end().to_string(),
        "a newline too many" => right + "\n",
        "two blanks between fields" => right.replace("remote ", "remote  "),
        "upper case" => right.to_uppercase().replace("TLCS", "tlcs").replace("TLC", "tlc"),
        "amounts lowest byte first" => {
            by_line(&|l| match l.split_once("local ").and_then(|(_, s)| s.split_once(' ')) {
                Some((key, amount)) => {
                    let bytes: Vec<&str> = (0..16).rev().map(|at| &amount[2 * at..2 * at + 2]).collect();
                    format!("local {key} {}\n", bytes.concat())
                }
                None => format!("{l}\n"),
            })
        }
        "local before remote" => {
            right.replace("remote", "x").replace("local", "remote").replace('x', "local")
        }
        "TLCs with another place" => right.replace("tlc 1 ", "tlc 2 "),
        "nothing for the empty input" if input.is_empty() => String::new(),
        _ => right,
    };
    print!("{print}");
    if fault == "something on standard error" {
        eprint!(" ");
    }
    i32::from(fault == "exit status 1")
}
