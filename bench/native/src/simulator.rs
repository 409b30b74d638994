//! Makes the moves of a plan, one by one.

use crate::plan::{Act, Kind, Move, Operand, Plan};

pub struct Simulator<'a> {
    plan: &'a Plan,
    pub blocks: Vec<Vec<u8>>,
    pub agents: Vec<Agent>,
    /// The agents that wait, in order of arrival.
    line: Vec<Waiter>,
}

pub struct Agent {
    /// How many of its calls have returned.
    pub returned: usize,
    phase: Phase,
}

struct Waiter {
    agent: usize,
    place: Place,
}

#[derive(Clone, Copy, PartialEq)]
struct Place {
    block: usize,
    byte: usize,
}

#[derive(Clone, Copy)]
enum Phase {
    Idle,
    Begun,
    Waiting { is_timed: bool },
    Woken,
    Answered(Answer),
}

#[derive(Clone, Copy, PartialEq, Eq, PartialOrd, Ord)]
pub enum Answer {
    Value(Operand),
    Ok,
    NotEqual,
    TimedOut,
    TypeError,
    RangeError,
}

/// What one move did.
pub struct Entry {
    pub agent: usize,
    pub call: usize,
    pub what: What,
}

pub enum What {
    Begin,
    Act(Answer),
    Wait,
    Leave(Answer),
    Return(Answer),
    Stuck(&'static str),
}

/// The result of a call that acts.
enum Outcome {
    Answered(Answer),
    Waits { is_timed: bool },
}

impl<'a> Simulator<'a> {
    pub fn new(plan: &'a Plan) -> Self {
        let blocks = plan.blocks.iter().map(|&length| vec![0; length]).collect();
        let agents = plan.agents.iter().map(|_| Agent { returned: 0, phase: Phase::Idle }).collect();
        Simulator { plan, blocks, agents, line: Vec::new() }
    }

    pub fn step(&mut self, Move { agent, is_time_up }: Move) -> Entry {
        let call = self.agents[agent].returned;
        let what = if is_time_up { self.time_up(agent) } else { self.turn(agent) };
        Entry { agent, call, what }
    }

    fn turn(&mut self, agent: usize) -> What {
        let state = &mut self.agents[agent];
        match state.phase {
            Phase::Idle if state.returned == self.plan.agents[agent].calls.len() => What::Stuck("done"),
            Phase::Idle => {
                state.phase = Phase::Begun;
                What::Begin
            }
            Phase::Begun => match self.act(agent) {
                Outcome::Answered(answer) => {
                    self.agents[agent].phase = Phase::Answered(answer);
                    What::Act(answer)
                }
                Outcome::Waits { is_timed } => {
                    self.agents[agent].phase = Phase::Waiting { is_timed };
                    What::Wait
                }
            },
            Phase::Waiting { .. } => What::Stuck("waiting"),
            Phase::Woken => {
                state.phase = Phase::Answered(Answer::Ok);
                What::Leave(Answer::Ok)
            }
            Phase::Answered(answer) => {
                state.phase = Phase::Idle;
                state.returned += 1;
                What::Return(answer)
            }
        }
    }

    fn time_up(&mut self, agent: usize) -> What {
        match self.agents[agent].phase {
            Phase::Waiting { is_timed: true } => {
                self.line.retain(|waiter| waiter.agent != agent);
                self.agents[agent].phase = Phase::Answered(Answer::TimedOut);
                What::Leave(Answer::TimedOut)
            }
            Phase::Waiting { is_timed: false } => What::Stuck("endless"),
            _ => What::Stuck("not-waiting"),
        }
    }

    /// Has the agent's call act. The checks come in the standard's order: kind, index, operands, blocking.
    fn act(&mut self, agent: usize) -> Outcome {
        let script = &self.plan.agents[agent];
        let call = &script.calls[self.agents[agent].returned];
        let view = &self.plan.views[call.view];
        let is_taken = match call.act {
            Act::Wait { .. } | Act::Notify { .. } => view.kind.is_waitable(),
            _ => view.kind.is_atomic(),
        };
        if !is_taken {
            return Outcome::Answered(Answer::TypeError);
        }
        let index = match usize::try_from(call.index) {
            Ok(index) if index < view.length => index,
            _ => return Outcome::Answered(Answer::RangeError),
        };
        let place = Place { block: view.block, byte: view.offset + index * view.kind.size() };
        match call.act {
            Act::Notify { count } => Outcome::Answered(self.notify(place, count)),
            Act::Wait { value, is_timed } => match raw(value, view.kind) {
                None => Outcome::Answered(Answer::TypeError),
                Some(_) if !script.can_block => Outcome::Answered(Answer::TypeError),
                Some(value) if value != element(self.bytes(place, view.kind)) => Outcome::Answered(Answer::NotEqual),
                Some(_) => {
                    self.line.push(Waiter { agent, place });
                    Outcome::Waits { is_timed }
                }
            },
            does => {
                Outcome::Answered(access(self.bytes(place, view.kind), does, view.kind).unwrap_or(Answer::TypeError))
            }
        }
    }

    /// Wakes the agents that have waited longest at a place.
    fn notify(&mut self, place: Place, count: Option<i64>) -> Answer {
        let (agents, most, mut woken) = (&mut self.agents, count.unwrap_or(i64::MAX), 0);
        self.line.retain(|waiter| {
            let is_woken = waiter.place == place && woken < most;
            if is_woken {
                agents[waiter.agent].phase = Phase::Woken;
                woken += 1;
            }
            !is_woken
        });
        Answer::Value(Operand::Number(woken))
    }

    fn bytes(&mut self, place: Place, kind: Kind) -> &mut [u8] {
        &mut self.blocks[place.block][place.byte..place.byte + kind.size()]
    }
}

/// Makes an access on an element's bytes, or none if an operand isn't one of the kind's.
pub fn access(bytes: &mut [u8], act: Act, kind: Kind) -> Option<Answer> {
    let old = element(bytes);
    let answer = match act {
        Act::Store(value) => {
            write(bytes, raw(value, kind)?);
            value
        }
        Act::Modify(combine, operand) => {
            write(bytes, combine(old, raw(operand, kind)?));
            value(old, kind)
        }
        Act::CompareExchange(expected, replacement) => {
            let (expected, replacement) = (raw(expected, kind)?, raw(replacement, kind)?);
            if old == expected {
                write(bytes, replacement);
            }
            value(old, kind)
        }
        _ => value(old, kind),
    };
    Some(Answer::Value(answer))
}

/// The number that the bytes of an element spell, from the least byte on.
pub fn element(bytes: &[u8]) -> u64 {
    match *bytes {
        [a] => a.into(),
        [a, b] => u16::from_le_bytes([a, b]).into(),
        [a, b, c, d] => u32::from_le_bytes([a, b, c, d]).into(),
        [a, b, c, d, e, f, g, h] => u64::from_le_bytes([a, b, c, d, e, f, g, h]),
        _ => unreachable!("an element has 1, 2, 4 or 8 bytes"),
    }
}

/// Writes the low bytes of a number.
fn write(bytes: &mut [u8], number: u64) {
    bytes.copy_from_slice(&number.to_le_bytes()[..bytes.len()]);
}

/// The low bits of an operand, as many as an element has; none if it is a Number where BigInts are, or a BigInt where
/// Numbers are.
pub fn raw(operand: Operand, kind: Kind) -> Option<u64> {
    let bits = match operand {
        Operand::Number(number) if !kind.is_big() => number as u64,
        Operand::BigInt(number) if kind.is_big() => number as u64,
        _ => return None,
    };
    Some(bits & (u64::MAX >> (64 - 8 * kind.size())))
}

/// The value that a kind reads in an element.
fn value(raw: u64, kind: Kind) -> Operand {
    match kind {
        Kind::Int8 => Operand::Number((raw as i8).into()),
        Kind::Int16 => Operand::Number((raw as i16).into()),
        Kind::Int32 => Operand::Number((raw as i32).into()),
        Kind::BigInt64 => Operand::BigInt((raw as i64).into()),
        Kind::BigUint64 => Operand::BigInt(raw.into()),
        _ => Operand::Number(raw as i64),
    }
}
