//! The reference's own text compared with the port. `oracle --help` says how; README.md says what it rests on.

mod bench;
mod document;
mod kinds;
mod partings;
mod port;
mod random;
mod reference;
mod run;
mod selftest;
mod settle;
mod shim;

use kinds::{Entry, TABLE};
use run::Options;
use std::process::exit;

const HELP: &str = "\
oracle: the text of nervosnetwork/fiber at 21c4dfbdbd, compared with the port over C

  oracle selftest                      checks the oracle itself
  oracle slices                        lists which lines of which file of the reference it holds
  oracle tokens                        lists the places of their tokens, for the script `mutants`
  oracle compare [KIND..] [options]    compares; without KIND every kind
      --rounds N      how many cases of each kind (1000000)
      --seconds S     ends each kind after S seconds
      --seed X        seed of the random cases (1)
      --from CASE     first case (0); cases are numbered, edges first
      --no-port       compares document 01 and the Rust alone; of append and walk nothing
  oracle one KIND SEED CASE [--no-port]   runs one case alone and prints all answers
  oracle dump [--seed X]               prints a sample of the Rust's answers, in the format told at its top
  oracle bench                         measures reader, update and choice beside the Rust, the journal beside a copy of
                                       its bytes (a release build)
  oracle settle --bin PATH [options]   runs the program `settle` as a process and compares what it prints
      --rounds N      how many processes (2000)
      --seconds S     ends after S seconds
      --seed X        seed of the random inputs (1)
      --from CASE     first case (0)
      --case CASE     runs one case alone and prints all answers
  oracle partings                      prints where document 01 and the Rust part, by running the Rust

Exit status: 0 agreed, 1 a case failed, 2 not run (wrong use).
";

/// Which of the two builds this is.
pub fn build() -> &'static str {
    if cfg!(debug_assertions) {
        "checked"
    } else {
        "plain"
    }
}

fn main() {
    // The reference's panics are answers, caught in reference/calls.rs. Others end the program by an exit status.
    std::panic::set_hook(Box::new(|_| {}));
    let arguments: Vec<String> = std::env::args().skip(1).collect();
    let words: Vec<&str> = arguments.iter().map(String::as_str).collect();
    let status = match words[..] {
        ["selftest"] => selftest(),
        ["slices"] => slices(),
        ["tokens"] => {
            print!("{}", reference::TOKENS);
            0
        }
        ["compare", ref rest @ ..] => compare(rest),
        ["one", kind, seed, case] => one(kind, seed, case, true),
        ["one", kind, seed, case, "--no-port"] => one(kind, seed, case, false),
        ["dump", ref rest @ ..] => dump(rest),
        ["bench"] => {
            bench::run();
            0
        }
        ["bench", "journal"] => {
            bench::journals();
            0
        }
        ["settle", ref rest @ ..] => settle(rest),
        // What the self test runs in the place of `settle`.
        ["stand-in", fault] => settle::stand_in(fault),
        ["partings"] => {
            partings::print();
            0
        }
        ["--help" | "-h" | "help"] => {
            print!("{}", help());
            0
        }
        [] => wrong("say what to do"),
        _ => wrong(&format!("`{}` is not understood", words.join(" "))),
    };
    exit(status)
}

fn help() -> String {
    let kind = |k: &Entry| format!("  {:8} {}, {}\n", k.name, k.about, k.export);
    format!("{HELP}\nKinds:\n{}", TABLE.iter().map(kind).collect::<String>())
}

fn wrong(what: &str) -> ! {
    eprintln!("oracle: {what}; `oracle --help` lists the commands");
    exit(2)
}

fn number<T: std::str::FromStr>(name: &str, text: &str) -> T {
    text.parse().unwrap_or_else(|_| wrong(&format!("{name} has to be a number and is `{text}`")))
}

fn kind(name: &str) -> &'static Entry {
    TABLE.iter().find(|k| k.name == name).unwrap_or_else(|| wrong(&format!("there is no kind `{name}`")))
}

fn selftest() -> i32 {
    let _ = std::panic::take_hook(); // a failed check says which
    std::panic::catch_unwind(selftest::run).map_or(1, |()| 0)
}

fn slices() -> i32 {
    print!("{}", reference::SLICES);
    println!("SHA-256 of the sliced text: {}", selftest::sliced_digest());
    println!("SHA-256 of that of who calls it: {}", selftest::caller_digest());
    0
}

fn compare(words: &[&str]) -> i32 {
    let mut options = Options { seed: 1, from: 0, rounds: 1_000_000, seconds: None, port: true };
    let mut chosen: Vec<&Entry> = vec![];
    let mut rest = words.iter();
    while let Some(word) = rest.next() {
        let mut value = || rest.next().copied().unwrap_or_else(|| wrong(&format!("{word} wants a number")));
        match *word {
            "--rounds" => options.rounds = number(word, value()),
            "--seconds" => options.seconds = Some(number(word, value())),
            "--seed" => options.seed = number(word, value()),
            "--from" => options.from = number(word, value()),
            "--no-port" => options.port = false,
            flag if flag.starts_with('-') => wrong(&format!("there is no option {flag}")),
            name => chosen.push(kind(name)),
        }
    }
    if chosen.is_empty() {
        chosen = TABLE.iter().collect();
    }
    println!("oracle: {} build, seed {}, cases from {}", build(), options.seed, options.from);
    let mut failures = 0;
    for kind in chosen {
        let tally = (kind.compare)(&options);
        print!("{tally}");
        failures += tally.failures;
    }
    i32::from(failures > 0)
}

fn one(name: &str, seed: &str, case: &str, port: bool) -> i32 {
    let kind = kind(name);
    match (kind.one)(number("SEED", seed), number("CASE", case), port) {
        true => 0,
        false => 1,
    }
}

fn settle(words: &[&str]) -> i32 {
    let mut options = settle::Options { seed: 1, from: 0, rounds: 2000, seconds: None };
    let (mut path, mut case) = (None, None);
    let mut rest = words.iter();
    while let Some(word) = rest.next() {
        let mut value = || rest.next().copied().unwrap_or_else(|| wrong(&format!("{word} wants a value")));
        match *word {
            "--bin" => path = Some(value()),
            "--rounds" => options.rounds = number(word, value()),
            "--seconds" => options.seconds = Some(number(word, value())),
            "--seed" => options.seed = number(word, value()),
            "--from" => options.from = number(word, value()),
            "--case" => case = Some(number(word, value())),
            other => wrong(&format!("there is no option {other}")),
        }
    }
    let path = path.unwrap_or_else(|| wrong("--bin has to name the program"));
    let program = match std::fs::canonicalize(path) {
        Ok(whole) => settle::Program { path: whole, arguments: vec![] },
        Err(e) => wrong(&format!("there is no program {path} ({e})")),
    };
    if let Some(case) = case {
        return i32::from(!settle::one(&program, options.seed, case));
    }
    println!("oracle: {} build, seed {}, cases from {}", build(), options.seed, options.from);
    let tally = settle::compare(&program, &options, Some(path));
    print!("{tally}");
    i32::from(tally.failures > 0)
}

fn dump(words: &[&str]) -> i32 {
    let mut seed = 1u64;
    let mut rest = words.iter();
    while let Some(word) = rest.next() {
        match *word {
            "--seed" => seed = number(word, rest.next().unwrap_or_else(|| wrong("--seed wants a number"))),
            other => wrong(&format!("there is no option {other}")),
        }
    }
    let header = DUMP_HEADER.replace("SEED", &seed.to_string()).replace("DIGEST", &selftest::sliced_digest());
    print!("{header}");
    for kind in TABLE {
        for line in (kind.dump)(seed) {
            println!("{line}");
        }
    }
    0
}

const DUMP_HEADER: &str = "\
# Answers of the Rust, nervosnetwork/fiber at commit 21c4dfbdbd, to a fixed list of inputs; and, as it has no journal, in
# lines of `append` and `walk` those that change request W2's words give.
# Made by `oracle dump --seed SEED` (oracle/README.md). SHA-256 of the reference's text that answered:
# DIGEST
#
# One case per line: kind; length of the output buffer, 0 where the call has none; the other inputs; `=`; status; what
# the answer buffer holds; and, where the output buffer is written, `:` and what it begins with. All in the order of the
# call over C, parted by single blanks. Numbers are decimal, in the answer buffer eight bytes with the low byte first;
# byte strings are `x` and lower-case hex. Bytes of both buffers that a line does not tell stay as they were. The lines
# of a kind stand together. Lines that begin with # are comments.
#
# An answer buffer begins with number and place. A taken input is 0 0 0, status, number and place, and then the fields
# told below: these and the output are the Rust's answer, laid out as the C interface does, with the lengths of outputs
# and whether there is an expiry. Three numbers alone are a refusal or a wait (20 to 25), status, number and place. The
# status is the number, and number and place are from document 01's table, 22 to 25 from change request W1's, as the Rust
# tells neither: in lines of `mul` it says None to the same inputs; in lines of `read`, `update`, `first` and `pick` it
# turns them down or waits too, but for 6, 7, 13 and 14, and 10 of args of 28 to 35 bytes, for which it is not asked.
# `ckb` and `sha256` have no answer buffer and no status, and 0 is in the status's place.
#
#   mul     number index length numerator denominator = number index length
#   due     header, delay and current, each as number index length = 1 if due, else 0
#   expiry  since = 1 milliseconds, or 0 0 for the Rust's None
#   key     public key, 33 bytes = key hash, 20 bytes
#   ckb     message : CKB hash, 32 bytes
#   sha256  message : SHA-256, 32 bytes
#   read    h witness = n, number of unlocks, places of the share part and the first unlock. The places follow from the
#           state that the Rust writes back, as it tells none.
#   update  h witness = length of the state left : the state left
#   first   h for_remote, local amount and remote amount (each low half, high half), settlement TLCs, local key, remote
#           key = length of the first state : the first state
#   pick    the choice: h for_remote is_later time, header and current (each number index length), local amount and
#           remote amount (each low half, high half), args, settlement TLCs, local key, remote key, tracked list, pairs,
#           witness = kind byte, amount (low half, high half), key kind, key place, delay kind, delay (number index
#           length), record (place length), lengths of unlock, state and new args, place of the pair, 1 if it is the last
#           settlement, else 0 : unlock, state and new args. Record and place of the pair are document 01's, as the Rust
#           does not tell them.
#   append  length unlock flag, amount (low half, high half), journal, channel id = new length : entry. The output buffer
#           is the journal's slice: it begins with the journal, of which there is less than the length says where that is
#           beyond the slice, and the entry is what then stands behind it.
#   walk    length, the journal's slice = bytes written : entries, newest first
#
# Left out are other inputs outside the equality of document 01: what cannot be handed to the Rust (fields beyond their
# bits, keys of other lengths), whole parts above 16777215, a length of 0 in the due test. No line is answered 40, whose
# journal would have 4 MB.
";
