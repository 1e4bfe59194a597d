//! Two towers, Alice's and Bob's, on one made-up commitment cell. They settle it turn by turn until nothing stands,
//! and each step is read back from what would be on chain. Run for both hash lengths, for Alice's and for Bob's
//! commitment, and with either tower asking first, or both in turns:
//!
//! ```sh
//! cargo run --example two_towers
//! ```
//!
//! It ends with an error where a side gets anything but its share, the TLCs that it offered and that expired, and the
//! TLCs whose preimage it has.

use std::error::Error;

use fiber_settlement::*;

type Any = Box<dyn Error>;

#[derive(Clone, Copy, PartialEq, Debug)]
enum Who {
    Alice,
    Bob,
}

const BOTH: [Who; 2] = [Who::Alice, Who::Bob];

/// A payment on the channel that is not settled yet.
#[derive(Clone, Copy)]
struct Payment {
    from: Who,
    algorithm: Algorithm,
    amount: u128,
    /// Does the receiver have the preimage? Then the payment is the receiver's, else it comes back to the sender.
    is_known: bool,
    expiry_ms: u64,
}

/// What both sides agreed on before one of them sent its commitment transaction.
struct Channel {
    owner: Who,
    hash_length: HashLength,
    shares: [u128; 2],
    payments: Vec<Payment>,
}

// ---- A made-up chain ----

/// The commitment cell that is live, the transaction that made it, and the tip.
struct Chain {
    args: LockArgs,
    cell_epoch: Epoch,
    /// The lock args of the cell before and the witness that spent it, as it is on chain. None: the commitment
    /// transaction made the cell.
    made_by: Option<(LockArgs, Vec<u8>)>,
    tip_epoch: Epoch,
    median_ms: u64,
}

const START_MS: u64 = 1_700_000_000_000;
const EPOCH_MS: u64 = 4 * 60 * 60 * 1000;
const START_EPOCH: u32 = 9_000;
/// The delay of the commitment in epochs: 2 for a third, 4 for two thirds.
const DELAY: u32 = 6;

impl Chain {
    /// The commitment transaction is on chain.
    fn new(channel: &Channel, owner: &Tower) -> Result<Chain, Any> {
        let epoch = Epoch::new(START_EPOCH, 0, 1800)?;
        let state = first_state(channel.hash_length, &owner.tlcs, &owner.balances)?;
        let mut bytes = vec![0; 57];
        bytes[20..28].copy_from_slice(&Epoch::new(DELAY, 0, 1)?.to_since().to_le_bytes());
        bytes[28..36].copy_from_slice(&42u64.to_be_bytes());
        bytes[36..56].copy_from_slice(&state.hash());
        if channel.hash_length == HashLength::Full {
            bytes.push(1);
        }
        let args = LockArgs::parse(&bytes)?;
        Ok(Chain { args, cell_epoch: epoch, made_by: None, tip_epoch: epoch, median_ms: START_MS })
    }

    /// Half an epoch passes.
    fn wait(&mut self) -> Result<(), Any> {
        let (number, index) = (self.tip_epoch.number(), self.tip_epoch.index());
        self.tip_epoch =
            if index == 0 { Epoch::new(number, 900, 1800)? } else { Epoch::new(number + 1, 0, 1800)? };
        self.median_ms += EPOCH_MS / 2;
        Ok(())
    }
}

// ---- A tower ----

struct Tower {
    who: Who,
    tlcs: SettlementTlcs,
    balances: Balances,
    preimages: Vec<Preimage>,
}

/// What a tower sends.
struct Sent {
    witness: Vec<u8>,
    /// The args of the next cell. None: this is the last settlement.
    next: Option<LockArgs>,
    /// What is owed before it, and what of that is paid.
    owed: u128,
    paid: u128,
    text: String,
}

/// A made-up public key: of the share for number 0, else of a TLC.
fn key(who: Who, number: usize) -> PublicKey {
    let mut key = [who as u8 + 2; 33];
    key[1] = number as u8;
    key
}

impl Tower {
    fn new(channel: &Channel, who: Who) -> Result<Tower, Any> {
        let commitment = if channel.owner == who { Commitment::Ours } else { Commitment::Theirs };
        let side = |other: Who| if other == who { Side::Us } else { Side::Them };
        let them = if who == Who::Alice { Who::Bob } else { Who::Alice };
        let mut preimages = vec![];
        let mut tlcs = vec![];
        for (place, payment) in channel.payments.iter().enumerate() {
            let preimage = [place as u8 + 1; 32];
            let tlc = SettlementTlc {
                offered_by: side(payment.from),
                algorithm: payment.algorithm,
                amount: payment.amount,
                payment_hash: payment.algorithm.hash(&preimage)?,
                expiry_ms: payment.expiry_ms,
                our_key: key(who, place + 1),
                their_key: key(them, place + 1),
            };
            if payment.is_known && payment.from != who {
                preimages.push(tlc.preimage(preimage)?);
            }
            tlcs.push(tlc);
        }
        let balances = Balances {
            our_amount: channel.shares[who as usize],
            their_amount: channel.shares[them as usize],
            our_key: key(who, 0),
            their_key: key(them, 0),
        };
        Ok(Tower { who, tlcs: SettlementTlcs::new(commitment, &tlcs), balances, preimages })
    }

    /// Looks at the live cell, and answers what to send, if there is anything.
    fn look(&self, chain: &Chain) -> Result<Option<Sent>, Any> {
        let Some((args_before, on_chain)) = &chain.made_by else {
            let tracked = TrackedTlcs::first(&self.tlcs, chain.args.hash_length())?;
            let state = first_state(chain.args.hash_length(), &self.tlcs, &self.balances)?;
            return self.ask(chain, None, &tracked, &state.owed(self.tlcs.commitment()));
        };
        let witness = Witness::from_chain(on_chain, &chain.args)?;
        assert!(witness.spends(args_before), "the witness opens the cell before");
        assert!(witness.state_matches(&chain.args), "the witness made this cell");
        let all = TrackedTlcs::first(&self.tlcs, chain.args.hash_length())?;
        for shown in witness.preimages() {
            assert!(all.iter().any(|(hash, _)| hash == shown.hash()), "a preimage of this commitment");
        }
        let tracked = TrackedTlcs::standing(&self.tlcs, witness.left())?;
        self.ask(chain, Some(&witness), &tracked, &witness.owed(self.tlcs.commitment()))
    }

    fn ask(
        &self,
        chain: &Chain,
        witness: Option<&Witness>,
        tracked: &TrackedTlcs,
        owed: &Owed,
    ) -> Result<Option<Sent>, Any> {
        let request = Request {
            args: &chain.args,
            tlcs: &self.tlcs,
            tracked,
            balances: &self.balances,
            preimages: &self.preimages,
            witness,
            time: MedianTime::from_millis(chain.median_ms)?,
            cell_epoch: chain.cell_epoch,
            tip_epoch: chain.tip_epoch,
        };
        let mut out = vec![0; request.output_length()];
        match choose(&request, &mut out)? {
            Outcome::Wait(cause) => ordinary(cause, chain, owed).map(|()| None),
            Outcome::Unlock(chosen) => self.send(&chosen, chain, owed).map(Some),
        }
    }

    /// Signs, and says what goes on chain. The signature is made up.
    fn send(&self, chosen: &Chosen, chain: &Chain, owed: &Owed) -> Result<Sent, Any> {
        assert_eq!(chosen.delay.is_some(), chain.made_by.is_none(), "the first settlement alone waits");
        if let Some(delay) = chosen.delay {
            assert!(is_due(chain.cell_epoch, delay, chain.tip_epoch)?);
        }
        let what = match chosen.unlocks {
            Unlocked::OurShare => "the own share".to_string(),
            Unlocked::Tlc { place, way } => {
                let tlc = owed.tlcs[place];
                let by = if way == Way::Timeout { tlc.by_timeout } else { tlc.by_preimage };
                assert_eq!((by, tlc.amount), (Side::Us, chosen.amount), "a tower takes its own");
                format!("TLC {place} of {} by {}", owed.tlcs.len(), way_name(way))
            }
        };
        // A host looks its secret up by the public key.
        let number = if let Key::OfTlc(place) = chosen.key { place + 1 } else { 0 };
        assert_eq!(chosen.signer(), &key(self.who, number), "the own key signs");
        let owed = owed.sum().ok_or("a sum that passes 128 bits")?;
        // The last settlement pays out the whole cell, and makes no other.
        let (paid, next, last) = match chosen.new_args() {
            None => (owed, None, ", and this is the last"),
            Some(next) => (chosen.amount, Some(*next), ""),
        };
        assert_eq!(chosen.is_last(), next.is_none());
        let text = format!("{:?} takes {what}: {paid} of the {owed} that are owed{last}", self.who);
        Ok(Sent { witness: chosen.signed_witness(&[9; 65]), next, owed, paid, text })
    }
}

/// Goes on where time ends the wait, or the other side does.
fn ordinary(cause: Cause, chain: &Chain, owed: &Owed) -> Result<(), Any> {
    let is_first = chain.made_by.is_none();
    match cause {
        Cause::DelayNotDue => assert!(is_first && owed.tlcs.is_empty(), "no TLC to wait for"),
        // The first TLC that we may still get, by its place among those that stand.
        Cause::DelayOrExpiry { tlc } => assert!(is_first && tlc < owed.tlcs.len(), "a TLC that stands"),
        Cause::ExpiryNotPassed { tlc } => {
            let tlc = owed.tlcs[tlc];
            assert_eq!(tlc.by_timeout, Side::Us, "a tower waits for its own");
            assert!(tlc.expiry_ms >= Some(chain.median_ms), "a TLC that has not expired");
        }
        Cause::NoPreimage { tlc } => {
            assert_eq!(owed.tlcs[tlc].by_preimage, Side::Us, "a tower waits for its own");
        }
        // Our share was paid out. What still stands goes with the other side's last settlement.
        Cause::NotOurShare => assert_eq!(owed.our_share, 0, "a share that was paid out"),
        // 20 and 23 cannot be: `choose` looks at the tracked list first, and that is made of the settlement TLCs.
        cause => return Err(cause.to_string().into()),
    }
    Ok(())
}

fn way_name(way: Way) -> &'static str {
    match way {
        Way::Timeout => "timeout",
        Way::Preimage { .. } => "preimage",
    }
}

// ---- The story ----

/// What a side has to get: its share, what it offered and nobody has the preimage of, what it has the preimage of.
fn due_to(channel: &Channel, who: Who) -> u128 {
    let gets = |payment: &&Payment| (payment.from == who) != payment.is_known;
    channel.shares[who as usize]
        + channel.payments.iter().filter(gets).map(|payment| payment.amount).sum::<u128>()
}

/// Who is asked first at each tip: always the same, or the one that did not send last.
#[derive(Clone, Copy, Debug)]
enum Turns {
    AliceFirst,
    BobFirst,
    Alternate,
}

impl Turns {
    fn order(self, last: Who) -> [Who; 2] {
        match (self, last) {
            (Turns::AliceFirst, _) | (Turns::Alternate, Who::Bob) => [Who::Alice, Who::Bob],
            (Turns::BobFirst, _) | (Turns::Alternate, Who::Alice) => [Who::Bob, Who::Alice],
        }
    }
}

/// The first of the towers that has something to send.
fn first_to_send(towers: &[Tower; 2], order: [Who; 2], chain: &Chain) -> Result<Option<(Who, Sent)>, Any> {
    for who in order {
        if let Some(sent) = towers[who as usize].look(chain)? {
            return Ok(Some((who, sent)));
        }
    }
    Ok(None)
}

/// Settles until no cell is left, and answers what Alice and Bob were paid.
fn settle(channel: &Channel, turns: Turns) -> Result<[u128; 2], Any> {
    let towers = [Tower::new(channel, Who::Alice)?, Tower::new(channel, Who::Bob)?];
    let mut chain = Chain::new(channel, &towers[channel.owner as usize])?;
    let (mut paid, mut last) = ([0, 0], Who::Bob);
    let in_all: u128 = BOTH.iter().map(|who| due_to(channel, *who)).sum();
    for _ in 0..400 {
        let Some((who, sent)) = first_to_send(&towers, turns.order(last), &chain)? else {
            chain.wait()?;
            continue;
        };
        let (number, half) = (chain.tip_epoch.number() - START_EPOCH, chain.tip_epoch.index() / 180);
        println!("  {number}.{half} epochs on, {}", sent.text);
        assert_eq!(sent.owed + paid[0] + paid[1], in_all, "what is owed and what was paid are all there is");
        paid[who as usize] += sent.paid;
        last = who;
        let Some(next) = sent.next else {
            return Ok(paid);
        };
        chain.made_by = Some((chain.args, sent.witness));
        chain.args = next;
        chain.cell_epoch = chain.tip_epoch;
    }
    Err("something still stands after 400 tips".into())
}

/// Payments of both kinds and both directions: two whose receiver has the preimage, two that expire.
fn both_kinds() -> Vec<Payment> {
    let late = START_MS + 5 * EPOCH_MS;
    let payment =
        |from, algorithm, amount, is_known| Payment { from, algorithm, amount, is_known, expiry_ms: late };
    vec![
        payment(Who::Alice, Algorithm::Ckb, 10, true),
        payment(Who::Bob, Algorithm::Sha256, 20, true),
        payment(Who::Alice, Algorithm::Sha256, 40, false),
        payment(Who::Bob, Algorithm::Ckb, 80, false),
    ]
}

/// Payments that expired before the commitment went on chain, so that timeouts wait for two thirds of the delay.
fn all_expired() -> Vec<Payment> {
    let payment = |from, amount| Payment {
        from,
        algorithm: Algorithm::Ckb,
        amount,
        is_known: false,
        expiry_ms: START_MS - 1,
    };
    vec![payment(Who::Alice, 10), payment(Who::Bob, 20), payment(Who::Alice, 40)]
}

/// Settles the channel, and holds what each side got against what it has to get.
fn story(name: &str, channel: &Channel, turns: Turns) -> Result<(), Any> {
    let (h, owner) = (channel.hash_length.bytes(), channel.owner);
    println!("{name}, h {h}, {owner:?}'s commitment, {turns:?}");
    let [alice, bob] = settle(channel, turns)?;
    println!("  Alice got {alice}, Bob got {bob}, {} in all", alice + bob);
    assert_eq!(alice, due_to(channel, Who::Alice), "what Alice has to get");
    assert_eq!(bob, due_to(channel, Who::Bob), "what Bob has to get");
    Ok(())
}

fn main() -> Result<(), Any> {
    let mut stories = 0;
    for (name, payments) in
        [("both kinds", both_kinds()), ("all expired", all_expired()), ("no TLCs", vec![])]
    {
        for hash_length in [HashLength::Short, HashLength::Full] {
            for owner in BOTH {
                for turns in [Turns::AliceFirst, Turns::BobFirst, Turns::Alternate] {
                    let channel =
                        Channel { owner, hash_length, shares: [1000, 2000], payments: payments.clone() };
                    story(name, &channel, turns)?;
                    stories += 1;
                }
            }
        }
    }
    println!("{stories} stories, each side got what it should");
    Ok(())
}

#[test]
fn each_side_gets_what_it_should() {
    main().expect("all stories end");
}

/// Made-up channels of every length up to the most TLCs that a choice takes. A payment whose receiver has the preimage
/// expires late, since the sender could take it back otherwise; of the others some have expired before.
#[test]
fn each_side_gets_what_it_should_on_any_channel() {
    let mut seed = 1u64;
    let mut below = |bound: u64| {
        seed = seed.wrapping_mul(6_364_136_223_846_793_005).wrapping_add(1_442_695_040_888_963_407);
        (seed >> 33) % bound
    };
    for length in (0..12).cycle().take(240).chain([253, 254]) {
        let payments = (0..length).map(|_| {
            let is_known = below(2) == 0;
            Payment {
                from: BOTH[below(2) as usize],
                algorithm: [Algorithm::Ckb, Algorithm::Sha256][below(2) as usize],
                amount: below(1000).into(),
                is_known,
                expiry_ms: START_MS + EPOCH_MS * if is_known { 3 + below(9) } else { below(9) } - 1,
            }
        });
        let channel = Channel {
            payments: payments.collect(),
            owner: BOTH[below(2) as usize],
            hash_length: [HashLength::Short, HashLength::Full][below(2) as usize],
            shares: [below(3000).into(), below(3000).into()],
        };
        let turns = [Turns::AliceFirst, Turns::BobFirst, Turns::Alternate][below(3) as usize];
        story("made up", &channel, turns).expect("the story ends");
    }
}
