//! Cuts the items that the oracle needs out of the reference's files, byte for byte, into OUT_DIR, and finds the
//! port's library. Items are named by kind and name (scan.rs).
//!
//! FIBER_SRC names the reference: a checkout of nervosnetwork/fiber at 21c4dfbdbd, or a folder in which that
//! checkout's file `a/b/c.rs` is called `src--a--b--c.rs.txt`. Nothing of the reference is kept in this package.
//! SETTLEMENT_LIB names the folder that holds libsettlement_c.a (tools/libraries writes it).

mod scan;

use scan::{Item, Text};
use std::collections::BTreeMap;
use std::path::{Path, PathBuf};
use std::{env, fs, process};

/// The port's library: the whole C interface.
const LIBRARIES: &[&str] = &["settlement_c"];

/// What is taken from a file.
enum Take {
    /// A whole item, with the comments and attributes right above it.
    Whole(&'static str),
    /// Some members of an impl or trait, in its header again.
    Members(&'static str, &'static [&'static str]),
}
use Take::{Members, Whole};

/// A file of OUT_DIR, made of slices.
struct Part {
    name: &'static str,
    from: &'static [(&'static str, &'static [Take])],
}

/// What answers in the comparison.
const PARTS: &[Part] = &[
    Part {
        name: "fiber_types.rs",
        from: &[
            (
                "crates/fiber-types/src/primitives.rs",
                &[
                    Whole("struct NodeId"),
                    Whole("struct Hash256"),
                    Whole("impl From<[u8;32]> for Hash256"),
                    Whole("impl AsRef<[u8]> for Hash256"),
                    Whole("impl LowerHex for Hash256"),
                    Whole("impl Debug for Hash256"),
                    Whole("struct Pubkey"),
                    Whole("impl Debug for Pubkey"),
                    Whole("const PUBKEY_SIZE"),
                    Members("impl NodeId", &["fn local"]),
                    Members("impl Pubkey", &["fn serialize"]),
                ],
            ),
            (
                "crates/fiber-types/src/channel.rs",
                &[
                    Whole("enum TLCId"),
                    Whole("impl TLCId"),
                    Whole("struct ChannelFeatures"),
                    Whole("impl ChannelFeatures"),
                ],
            ),
            (
                "crates/fiber-types/src/invoice.rs",
                &[Whole("enum HashAlgorithm"), Whole("impl HashAlgorithm"), Whole("fn sha256")],
            ),
            (
                "crates/fiber-types/src/watchtower.rs",
                &[
                    Whole("struct RevocationData"),
                    Whole("struct SettlementData"),
                    Whole("struct SettlementTlc"),
                    Whole("fn settlement_tlc_witness"),
                    Whole("fn settlement_data_witness"),
                    Whole("struct ChannelData"),
                ],
            ),
        ],
    },
    Part {
        name: "arithmetic.rs",
        from: &[(
            "crates/fiber-lib/src/utils/arithmetic.rs",
            &[
                Whole("struct ArithmeticError"),
                Whole("impl ArithmeticError"),
                Whole("impl Display for ArithmeticError"),
                Whole("impl Error for ArithmeticError"),
                Whole("fn checked_add_u64"),
                Whole("fn checked_mul_u64"),
                Whole("fn checked_sub_usize"),
            ],
        )],
    },
    Part {
        name: "lib_parts.rs",
        from: &[
            (
                STORE,
                &[
                    Members("trait WatchtowerStore", &["fn get_watch_preimage"]),
                    Whole("fn channel_data_local_settlement_pubkey_hash"),
                ],
            ),
            (RECONCILE, &[Whole("struct TrackedSettlementTlc"), Whole("fn tracked_settlement_tlcs")]),
        ],
    },
    Part {
        name: "actor.rs",
        from: &[(
            ACTOR,
            &[
                Whole("struct SettlementWitness"),
                Whole("struct WitnessReader"),
                Whole("impl WitnessReader"),
                Whole("struct Htlc"),
                Whole("impl Htlc"),
                Whole("struct Unlock"),
                Whole("impl Unlock"),
                Whole("impl SettlementWitness"),
                Whole("fn mul"),
                Whole("fn verified_watch_preimage"),
                Whole("fn first_settlement_witness"),
            ],
        )],
    },
];

/// Who calls `build_settlement_tx`, and the scan of the chain before it: for `oracle partings` alone.
const CALLER: Part = Part {
    name: "caller.rs",
    from: &[
        (
            STORE,
            &[Members(
                "trait WatchtowerStore",
                &["fn insert_watch_preimage", "fn insert_onchain_tlc_settlement"],
            )],
        ),
        (RECONCILE, &[Whole("struct OnChainTlcSettlement")]),
        (
            ACTOR,
            &[
                Whole("struct WatchedSettlementScan"),
                Whole("fn scan_watched_settlement_txs"),
                Whole("fn lock_matches_commitment_prefix"),
                Whole("fn process_watched_settlement_tx_with_features"),
                Whole("fn has_successor_commitment_output"),
                Whole("fn reconcile_settlement_witness"),
            ],
        ),
    ],
};

const ACTOR: &str = "crates/fiber-lib/src/watchtower/actor.rs";
const STORE: &str = "crates/fiber-lib/src/watchtower/store.rs";
const RECONCILE: &str = "crates/fiber-lib/src/fiber/onchain_tlc_reconcile.rs";

/// Stands behind the head of `build_settlement_tx`: hands back what was chosen instead of a transaction.
const HAND_OVER: &str = "
    // ---- here the reference's text ends; what follows is the harness's ----
    return Ok(Some(TransactionView {
        unlock: unlock.to_witness(),
        amount: unlock_amount,
        key: unlock_key,
        state: new_settlement_witness,
        new_args: new_commitment_lock_script_args,
        is_first_settlement,
        delay: delay_epoch,
        last: two_parties_all_settled,
    }));
}
";

/// Stands behind the caller's statements: what it would hand to `build_settlement_tx`.
const HAND_ON: &str = "
    // ---- here the reference's text ends; what follows is the harness's ----
    Some((cell_header_epoch, settlement_witness, tracked_tlcs.clone()))
";

fn main() {
    println!("cargo:rerun-if-changed=build.rs");
    println!("cargo:rerun-if-changed=scan.rs");
    println!("cargo:rerun-if-env-changed=FIBER_SRC");
    println!("cargo:rerun-if-env-changed=SETTLEMENT_LIB");
    let root = folder("FIBER_SRC", "a checkout of nervosnetwork/fiber at 21c4dfbdbd");
    let out = PathBuf::from(env::var("OUT_DIR").expect("cargo sets OUT_DIR"));
    let actor = Source::open(&root, ACTOR);

    let mut answering = Slices::default();
    for part in PARTS {
        let mut text = answering.part(&root, part);
        if part.name == "actor.rs" {
            text += &answering.settlement_head(&actor);
            text += HAND_OVER;
        }
        write(&out.join(part.name), &text);
    }
    write(&out.join("due.rs"), &answering.due_condition(&actor));

    let mut caller = Slices::default();
    let text = caller.part(&root, &CALLER);
    write(&out.join(CALLER.name), &text);
    write(
        &out.join("caller_statements.rs"),
        &format!("{{\n{}{HAND_ON}}}\n", caller.caller_statements(&actor)),
    );

    write(&out.join("slices.tsv"), &(answering.table.clone() + &caller.table));
    write(&out.join("sliced.txt"), &answering.text);
    write(&out.join("sliced_caller.txt"), &caller.text);
    write(&out.join("tokens.tsv"), &answering.tokens);
    say_lines(&[answering, caller]);

    link(&folder("SETTLEMENT_LIB", "the folder of libsettlement_c.a"));
}

/// One line for each file: which of its lines were taken. Cargo shows it at every build.
fn say_lines(slices: &[Slices]) {
    let mut files: BTreeMap<&str, Vec<(usize, usize)>> = BTreeMap::new();
    for (file, first, last) in slices.iter().flat_map(|s| &s.lines) {
        files.entry(file).or_default().push((*first, *last));
    }
    for (file, mut lines) in files {
        lines.sort_unstable();
        lines.dedup();
        let lines: Vec<String> = lines.iter().map(|(first, last)| format!("{first}-{last}")).collect();
        println!("cargo:warning=taken from {file}: lines {}", lines.join(", "));
    }
}

/// Ends the build with one sentence.
fn fail(sentence: &str) -> ! {
    eprintln!("oracle: {sentence}");
    process::exit(1)
}

fn folder(variable: &str, meaning: &str) -> PathBuf {
    let Some(value) = env::var_os(variable).filter(|v| !v.is_empty()) else {
        fail(&format!("{variable} is not set: it has to name {meaning}."));
    };
    let path = PathBuf::from(value);
    if !path.is_absolute() {
        fail(&format!("{variable} is {}: give an absolute path.", path.display()));
    }
    if !path.is_dir() {
        fail(&format!("{variable} is {}, which is no folder.", path.display()));
    }
    path
}

fn write(path: &Path, text: &str) {
    if let Err(e) = fs::write(path, text) {
        fail(&format!("{} cannot be written: {e}.", path.display()));
    }
}

/// Links the port's libraries.
fn link(folder: &Path) {
    println!("cargo:rustc-link-search=native={}", folder.display());
    for name in LIBRARIES {
        let library = folder.join(format!("lib{name}.a"));
        if !library.is_file() {
            fail(&format!("SETTLEMENT_LIB has no lib{name}.a (there is no {}).", library.display()));
        }
        println!("cargo:rerun-if-changed={}", library.display());
        println!("cargo:rustc-link-lib=static={name}");
    }
}

/// A file of the reference.
struct Source {
    /// Its path in the checkout.
    file: &'static str,
    code: Text,
}

impl Source {
    fn open(root: &Path, file: &'static str) -> Source {
        let in_checkout = root.join(file);
        let flat = root.join(format!("src--{}.txt", file.replace('/', "--")));
        let path = if in_checkout.is_file() { in_checkout } else { flat };
        println!("cargo:rerun-if-changed={}", path.display());
        let text = fs::read_to_string(&path).map_err(|e| e.to_string());
        match text.and_then(Text::new) {
            Ok(code) => Source { file, code },
            Err(e) => fail(&format!("FIBER_SRC has no readable {file} ({}: {e}).", path.display())),
        }
    }

    /// What was found, or the end of the build.
    fn sure<T>(&self, found: Result<T, String>) -> T {
        found.unwrap_or_else(|why| fail(&format!("{}: {why}.", self.file)))
    }

    fn find(&self, name: &str) -> Item {
        self.sure(self.code.find(name))
    }
}

/// What was taken so far.
#[derive(Default)]
struct Slices {
    /// File, lines, item.
    table: String,
    lines: Vec<(&'static str, usize, usize)>,
    /// The text, slice by slice.
    text: String,
    /// File, item or member, number of the token, its first byte and the byte behind it in the file.
    tokens: String,
}

impl Slices {
    fn part(&mut self, root: &Path, part: &Part) -> String {
        let mut text = String::new();
        for (file, takes) in part.from {
            let source = Source::open(root, file);
            for take in *takes {
                text += &match take {
                    Whole(name) => self.whole(&source, name),
                    Members(outer, names) => self.members(&source, outer, names),
                };
            }
        }
        text
    }

    fn cut(&mut self, source: &Source, name: &str, from: usize, to: usize) -> String {
        let (first, last) = (source.code.line(from), source.code.line(to - 1));
        self.table += &format!("{}\t{first}-{last}\t{name}\n", source.file);
        self.lines.push((source.file, first, last));
        let text = &source.code.text[from..to];
        self.text += text;
        self.text += "\n";
        text.to_string()
    }

    /// Cuts an item up to the token `last`, with what stands right above it.
    fn cut_item(&mut self, source: &Source, name: &str, item: &Item, last: usize) -> String {
        let code = &source.code;
        if item.name.starts_with("impl ") && item.open.is_some() {
            for member in code.members(item) {
                self.list(source, &format!("{name} / {}", member.name), member.first, member.last);
            }
        } else {
            self.list(source, name, item.first, last);
        }
        self.cut(source, name, code.with_attributes(item.first), code.tokens[last].to)
    }

    fn list(&mut self, source: &Source, name: &str, first: usize, last: usize) {
        for (number, token) in source.code.tokens[first..=last].iter().enumerate() {
            let (file, number) = (source.file, number + 1);
            self.tokens += &format!("{file}\t{name}\t{number}\t{}\t{}\n", token.from, token.to);
        }
    }

    fn whole(&mut self, source: &Source, name: &str) -> String {
        let item = source.find(name);
        self.cut_item(source, name, &item, item.last) + "\n\n"
    }

    fn members(&mut self, source: &Source, outer: &str, names: &[&str]) -> String {
        let code = &source.code;
        let block = source.find(outer);
        let open = source.sure(block.open.ok_or(format!("the item `{outer}` has no members")));
        let mut text = code.text[code.tokens[block.first].from..code.tokens[open].to].to_string();
        for name in names {
            let path = format!("{outer} / {name}");
            let member = source.find(&path);
            text += "\n";
            text += &self.cut_item(source, &path, &member, member.last);
        }
        text + "\n}\n\n"
    }

    /// `build_settlement_tx` up to the statement that completes the new args: the first `if` behind the new hash.
    fn settlement_head(&mut self, source: &Source) -> String {
        let code = &source.code;
        let name = "fn build_settlement_tx";
        let item = source.find(name);
        let (_, hash) = source.sure(code.binding(&item, "new_script_hash", 0, 1));
        let features = source.sure(code.ahead(hash, "if"));
        let last = code.close(source.sure(code.ahead(features, "{")));
        let (behind, _) = source.sure(code.binding(&item, "placeholder_witness_for_change", 0, 1));
        if behind != last + 1 {
            fail(&format!("{}: there are statements between the new args and the cut.", source.file));
        }
        self.cut_item(source, name, &item, last)
    }

    /// The due test: what the `if` right behind the second `let delay` of `build_settlement_tx` asks, an expression
    /// over `cell_header_epoch`, `delay` and `current_epoch`.
    fn due_condition(&mut self, source: &Source) -> String {
        let code = &source.code;
        let item = source.find("fn build_settlement_tx");
        let (_, third) = source.sure(code.binding(&item, "delay", 1, 2));
        if code.token(third + 1) != "if" {
            fail(&format!("{}: no `if` stands behind the second `let delay`.", source.file));
        }
        let open = source.sure(code.ahead(third, "{"));
        let (from, to) = (code.tokens[third + 2].from, code.tokens[open - 1].to);
        self.cut(source, "fn build_settlement_tx, condition of the due test", from, to)
    }

    /// The statements of `try_settle_commitment_tx` on one live cell, up to the witness that it hands on.
    fn caller_statements(&mut self, source: &Source) -> String {
        let code = &source.code;
        let item = source.find("fn try_settle_commitment_tx");
        let (first, _) = source.sure(code.binding(&item, "commitment_tx_hash", 0, 1));
        let (_, last) = source.sure(code.binding(&item, "settlement_witness", 0, 1));
        let (from, to) = (code.tokens[first].from, code.tokens[last].to);
        self.cut(source, "fn try_settle_commitment_tx, statements on a live cell", from, to)
    }
}
