//! One run: a pairing with the crate's machine, call by call, as records and as the lines that belong to them.

use crate::runs::account::{noise, Account};
use crate::runs::calls::{answer_record, timeout_record, Call, Input, Opening, Supplied};
use crate::runs::coverage::{input_name, Coverage};
use crate::runs::dice::Dice;
use crate::runs::known::{honest, known, start_refusal, Mark, Says};
use crate::methods::method_name;
use crate::runs::lines::{Parts, Seen};
use crate::runs::opening::{above_range, opening, outbox, passkey, sides, Plan};
use crate::runs::pad::{any_oob, Pad};
use crate::runs::twin::Twin;
use crate::Error;

/// A record, its line without the number, the tag of a known difference, and whether that was tried on the crate.
pub struct Entry {
    pub record: Vec<u8>,
    pub line: String,
    pub tag: Option<&'static str>,
    pub tried: bool,
}

/// Longer than any run goes on.
const MOST_CALLS: usize = 150;

pub struct Run<'a> {
    dice: Dice,
    plan: Plan,
    opening: Opening,
    pad: Pad,
    account: Account,
    twin: Twin,
    seen: Seen,
    /// The crate's machine is where 01's is; not so after a failure that the crate doesn't know.
    in_step: bool,
    /// No more calls, whatever the plan says.
    closed: bool,
    /// The latest answer, as an answer record tells it.
    told: (u8, u8),
    coverage: &'a mut Coverage,
    pub entries: Vec<Entry>,
    /// Marked calls on which the crate didn't do what the list says.
    pub unlike: Vec<String>,
}

/// Odd ways to make a call whose input is right.
#[derive(Clone, Copy, PartialEq)]
enum Twist {
    None,
    ShortOutbox,
    ZeroNonce,
    HighPasskey,
}

impl<'a> Run<'a> {
    pub fn play(seed: u64, number: u64, coverage: &'a mut Coverage) -> Self {
        let mut dice = Dice::new(seed, number);
        let plan = Plan::new(number, &mut dice);
        let sides = sides(plan.shape, &mut dice);
        let opening = opening(&plan, sides, &mut dice);
        let pad = Pad::new(&plan, sides, &mut dice);
        let (twin, outcome) = Twin::start(&opening);
        let seen = twin.seen();
        let mut parts = Parts::of(&outcome, &seen);
        parts.answer = "started".into();
        let mut run = Run {
            account: Account::new(&opening),
            in_step: true,
            closed: false,
            told: (0, 0),
            entries: vec![],
            unlike: vec![],
            dice,
            plan,
            opening,
            pad,
            twin,
            seen,
            coverage,
        };
        run.open(parts);
        while run.goes_on() {
            run.step();
        }
        run
    }

    fn open(&mut self, started: Parts) {
        let record = self.opening.record();
        let Some((tag, number)) = start_refusal(&self.opening) else {
            return self.enter(record, "setup", started, None);
        };
        self.seen = self.seen.failed(Error::InvalidState);
        self.in_step = false;
        self.enter(record, "setup", Parts::refused(number), Some(tag));
    }

    fn enter(&mut self, record: Vec<u8>, kind: &str, parts: Parts, tag: Option<&'static str>) {
        if !matches!(kind, "timeout" | "answer") {
            self.told = parts.told();
        }
        let line = parts.line(kind, &self.seen);
        self.entries.push(Entry {
            record,
            line,
            tag,
            tried: false,
        });
    }

    fn goes_on(&mut self) -> bool {
        if self.closed || self.entries.len() > MOST_CALLS {
            return false;
        }
        if !self.seen.finished() || self.at_target() {
            return true;
        }
        let more = self.plan.after > 0;
        self.plan.after = self.plan.after.saturating_sub(1);
        more
    }

    fn at_target(&self) -> bool {
        self.plan.target.is_some_and(|(state, _)| self.at(state))
    }

    /// In this state, and in the round or with the held payload of the plan.
    fn at(&self, state: &str) -> bool {
        let phase = &self.seen.phase;
        state == phase.name
            && phase.round.is_none_or(|round| round >= self.plan.round)
            && phase.held.is_none_or(|held| held >= self.plan.held)
    }

    fn step(&mut self) {
        if self.at_target() {
            return self.meet_target();
        }
        if self.plan.target.is_some_and(|(state, _)| state == "Error") {
            return self.fail();
        }
        if self.dice.chance(10) {
            return self.tell();
        }
        let odd = self.seen.finished() || self.may_be_odd();
        match if odd { self.dice.below(24) } else { 99 } {
            0 | 1 => self.timeout(),
            2 | 3 => self.right(Twist::ShortOutbox),
            4 => self.right(Twist::ZeroNonce),
            5 | 6 => self.right(Twist::HighPasskey),
            99 => self.right(Twist::None),
            _ => self.odd(),
        }
    }

    /// Nothing odd comes before a target is met or the calm is over.
    fn may_be_odd(&mut self) -> bool {
        if self.plan.calm.is_some_and(|state| self.at(state)) {
            self.plan.calm = None;
        }
        !self.plan.leads() && self.dice.chance(self.plan.odd)
    }

    fn meet_target(&mut self) {
        let Some((_, kind)) = self.plan.target.take() else {
            return;
        };
        self.plan.odd = 100;
        if kind == "timeout" {
            return self.timeout();
        }
        let input = self
            .pad
            .of_kind(kind, &self.seen, &self.account, &mut self.dice);
        self.call(input, Twist::None);
    }

    /// Some way to Error.
    fn fail(&mut self) {
        if self.dice.chance(500) {
            self.timeout();
        } else {
            self.odd();
        }
    }

    fn right(&mut self, twist: Twist) {
        let input = self.pad.right(&self.seen, &self.account, &mut self.dice);
        self.call(input, twist);
    }

    fn odd(&mut self) {
        let input = self.pad.odd(&self.seen, &self.account, &mut self.dice);
        let short = self.dice.chance(50);
        let twist = if short {
            Twist::ShortOutbox
        } else {
            Twist::None
        };
        self.call(input, twist);
    }

    fn timeout(&mut self) {
        self.coverage.meet(self.seen.phase.name, "timeout");
        self.twin.mark_timeout();
        if self.in_step {
            self.seen = self.twin.seen();
        }
        self.enter(timeout_record(), "timeout", Parts::bare("-"), None);
    }

    /// An answer record, mostly a true one.
    fn tell(&mut self) {
        let other = self.dice.pick(&[(0, 0), (1, 16), (1, 43), (2, 1), (2, 3)]);
        let told = if self.dice.chance(800) {
            self.told
        } else {
            other
        };
        let answer = if told == self.told { "same" } else { "differs" };
        self.enter(answer_record(told), "answer", Parts::bare(answer), None);
    }

    fn call(&mut self, input: Input, twist: Twist) {
        let mut supplied = noise(&mut self.dice);
        if twist == Twist::ZeroNonce {
            supplied.nonce = 0;
        }
        if self.account.reads_passkey(&self.seen, &input) {
            supplied.passkey = if twist == Twist::HighPasskey {
                above_range(&mut self.dice)
            } else {
                passkey(&mut self.dice)
            };
        }
        self.account.answer(&self.seen, &input, &mut supplied);
        let outbox = outbox(twist == Twist::ShortOutbox, &mut self.dice);
        let beside = any_oob(&mut self.dice);
        self.make(Call {
            input,
            beside,
            outbox,
            supplied,
        });
    }

    fn make(&mut self, call: Call) {
        let before = self.seen.clone();
        self.coverage
            .meet(before.phase.name, input_name(&call.input));
        let mark = known(&before, &self.opening, &self.account, &call);
        let tried = mark.as_ref().and_then(|mark| self.try_mark(mark, &call));
        let parts = match &mark {
            None => self.put(&call, &call.input),
            Some(mark) => self.as_01_says(mark, &call),
        };
        if self.seen.finished() && !before.finished() {
            let answer = parts.answer.replace("taken", "Success");
            let method = method_name(self.seen.method, "PassKeyEntry:");
            self.coverage.end(&method, &answer);
        }
        let tag = mark.map(|mark| mark.tag);
        self.enter(call.record(), call.kind(), parts, tag);
        self.entries.last_mut().unwrap().tried = tried.is_some();
    }

    /// Holds a marked call to the list, where the crate's machine is in step.
    fn try_mark(&mut self, mark: &Mark, call: &Call) -> Option<bool> {
        if !self.in_step {
            return None;
        }
        let tried = honest(mark, &self.opening, &self.twin, call);
        if tried == Some(false) {
            let (tag, state) = (mark.tag, self.seen.phase.name);
            self.unlike.push(format!("{tag} {state} {:?}", call.input));
        }
        tried
    }

    fn as_01_says(&mut self, mark: &Mark, call: &Call) -> Parts {
        match &mark.says {
            Says::Refused(number) => Parts::refused(*number),
            Says::Failed(error) => {
                let request = matches!(&call.input, Input::Command(c) if c.first() == Some(&0x01));
                let awaited = self.seen.phase.name == "WaitingPairingRequest";
                let parts = Parts::failed(error, request && awaited && self.opening.known);
                self.seen = self.seen.failed(error.clone());
                self.in_step = false;
                parts
            }
            Says::As(input) => self.put(call, input),
            Says::NoAction => Parts {
                action: "-".into(),
                ..self.put(call, &call.input)
            },
            Says::ZeroNonce => self.zero_nonce(call),
        }
    }

    /// Puts an input to the crate's machine: its answer is the line.
    fn put(&mut self, call: &Call, input: &Input) -> Parts {
        let before = self.seen.clone();
        let Some(outcome) = self.twin.take(input, &call.supplied) else {
            self.closed = true;
            return Parts::bare("the-crate-stops");
        };
        self.seen = self.twin.seen();
        if outcome.answer.is_ok() {
            self.count_features(&before, input);
            self.account.book(&before, call);
        }
        Parts::of(&outcome, &self.seen)
    }

    /// The crate asserts that no nonce is zero. It gets another one, and its last frame what zero gives.
    fn zero_nonce(&mut self, call: &Call) -> Parts {
        self.closed = true;
        let supplied = Supplied {
            nonce: 1,
            ..call.supplied.clone()
        };
        let sends_nonce = self.seen.phase.name == "WaitingOobRandom";
        let Some(mut outcome) = self.twin.take(&call.input, &supplied) else {
            return Parts::bare("the-crate-stops");
        };
        self.seen = self.twin.seen();
        let value = if sends_nonce { 0 } else { supplied.own_confirm };
        if let Some(frame) = outcome.frames.last_mut() {
            frame.truncate(5);
            frame.extend(value.to_le_bytes());
        }
        Parts::of(&outcome, &self.seen)
    }

    fn count_features(&mut self, before: &Seen, input: &Input) {
        if let ("WaitingPairingRequest", Input::Command(request)) = (before.phase.name, input) {
            let (own, oob) = (self.opening.io.into(), self.opening.oob);
            let (mitm, peer_oob) = (request[3] & 0x04 != 0, request[2] == 1);
            let combination = (own, request[1], mitm, peer_oob, oob);
            self.coverage.combinations.insert(combination);
        }
    }
}
