//! Plans: what agents are to do, and in which order.

use serde::Deserialize;

/// What agents are to do.
pub struct Plan {
    pub blocks: Vec<usize>,
    pub views: Vec<View>,
    pub agents: Vec<Script>,
    pub schedule: Vec<Move>,
}

pub struct View {
    pub kind: Kind,
    pub block: usize,
    pub offset: usize,
    pub length: usize,
}

/// The calls of one agent.
pub struct Script {
    pub can_block: bool,
    pub calls: Vec<Call>,
}

pub struct Call {
    pub act: Act,
    pub view: usize,
    pub index: i64,
}

#[derive(Clone, Copy)]
pub enum Act {
    Load,
    Store(Operand),
    Modify(fn(u64, u64) -> u64, Operand),
    CompareExchange(Operand, Operand),
    Wait { value: Operand, is_timed: bool },
    Notify { count: Option<i64> },
}

#[derive(Clone, Copy, PartialEq, Eq, PartialOrd, Ord)]
pub enum Operand {
    Number(i64),
    BigInt(i128),
}

#[derive(Clone, Copy, Deserialize, PartialEq)]
pub enum Kind {
    Int8,
    Uint8,
    Uint8Clamped,
    Int16,
    Uint16,
    Int32,
    Uint32,
    Float32,
    Float64,
    BigInt64,
    BigUint64,
}

impl Kind {
    pub fn size(self) -> usize {
        match self {
            Kind::Int8 | Kind::Uint8 | Kind::Uint8Clamped => 1,
            Kind::Int16 | Kind::Uint16 => 2,
            Kind::Int32 | Kind::Uint32 | Kind::Float32 => 4,
            Kind::Float64 | Kind::BigInt64 | Kind::BigUint64 => 8,
        }
    }

    pub fn is_big(self) -> bool {
        matches!(self, Kind::BigInt64 | Kind::BigUint64)
    }

    pub fn is_atomic(self) -> bool {
        !matches!(self, Kind::Uint8Clamped | Kind::Float32 | Kind::Float64)
    }

    pub fn is_waitable(self) -> bool {
        matches!(self, Kind::Int32 | Kind::BigInt64)
    }
}

/// A step of an agent, or that the time of its wait is up.
#[derive(Clone, Copy)]
pub struct Move {
    pub agent: usize,
    pub is_time_up: bool,
}
