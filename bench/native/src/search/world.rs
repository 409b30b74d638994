//! A state to work on: its row, and the acts from it.

use std::ops::Range;

use crate::automata::{Node, Program};
use crate::plan::{Act, Call};
use crate::simulator::{access, element, raw, Answer};

#[derive(Clone, Default)]
pub struct World {
    /// The bytes of all blocks.
    pub bytes: Vec<u8>,
    /// Those who wait, in order of arrival.
    pub line: Vec<Waiter>,
    /// For each agent, a bit: whether it was woken and hasn't left.
    pub woken: u16,
    pub nodes: Vec<u32>,
    /// For each agent, the nodes of its ordinary accesses since its last act.
    pub recent: Vec<Vec<u32>>,
}

#[derive(Clone, Copy)]
pub struct Waiter {
    pub agent: u32,
    /// The byte among those of all blocks.
    pub place: u32,
}

/// What an agent did.
pub enum Deed {
    Act(Answer),
    Wait,
    Leave(Answer),
    Read,
    Write,
}

/// What comes of an act.
pub enum Step {
    Absent,
    Leads(Deed),
    /// At a node a result has no edge: this answer of a call, or the bytes that are there now.
    Lost(u32, Option<Answer>),
}

/// Where the accesses of an act end.
enum Reached {
    Node(u32),
    Lost(u32),
}

impl World {
    /// The state before the agents begin.
    pub fn new(program: &Program) -> World {
        let many = program.agents.len();
        World { bytes: program.bytes.clone(), nodes: vec![0; many], recent: vec![Vec::new(); many], ..World::default() }
    }

    /// Becomes another state.
    pub fn become_like(&mut self, other: &World) {
        self.bytes.clone_from(&other.bytes);
        self.line.clone_from(&other.line);
        self.woken = other.woken;
        self.nodes.clone_from(&other.nodes);
        for (mine, theirs) in self.recent.iter_mut().zip(&other.recent) {
            mine.clone_from(theirs);
        }
    }

    /// Makes the accesses of all agents before their first calls. If a result has no edge, returns the agent and the node.
    pub fn begin(&mut self, program: &Program) -> Result<(), (usize, u32)> {
        for agent in 0..program.agents.len() {
            match self.run_on(program, agent, 0) {
                Reached::Node(node) => self.nodes[agent] = node,
                Reached::Lost(node) => return Err((agent, node)),
            }
        }
        Ok(())
    }

    pub fn is_waiting(&self, agent: usize) -> bool {
        self.line.iter().any(|waiter| waiter.agent as usize == agent)
    }

    pub fn is_woken(&self, agent: usize) -> bool {
        self.woken >> agent & 1 == 1
    }

    /// Makes an agent's act that isn't the end of its time.
    pub fn own_act(&mut self, program: &Program, agent: usize) -> Step {
        match program.node(agent, self.nodes[agent]) {
            Node::Call { call, edges } => {
                if self.is_waiting(agent) {
                    return Step::Absent;
                }
                let deed = self.call(program, agent, call);
                match deed {
                    Deed::Act(answer) | Deed::Leave(answer) => self.led(program, agent, answer, edges, deed),
                    _ => {
                        self.recent[agent].clear();
                        Step::Leads(deed)
                    }
                }
            }
            Node::Access { range, writes, is_alone: true, edges } => match self.make(range, writes.as_deref(), edges) {
                Some(to) => self.go_on(program, agent, to, if writes.is_some() { Deed::Write } else { Deed::Read }),
                None => Step::Lost(self.nodes[agent], None),
            },
            _ => Step::Absent,
        }
    }

    /// Ends an agent's wait by its timeout.
    pub fn time_up(&mut self, program: &Program, agent: usize) -> Step {
        match program.node(agent, self.nodes[agent]) {
            Node::Call { call: Call { act: Act::Wait { is_timed: true, .. }, .. }, edges }
                if self.is_waiting(agent) =>
            {
                self.line.retain(|waiter| waiter.agent as usize != agent);
                self.led(program, agent, Answer::TimedOut, edges, Deed::Leave(Answer::TimedOut))
            }
            _ => Step::Absent,
        }
    }

    /// Goes along the edge of an answer.
    fn led(&mut self, program: &Program, agent: usize, answer: Answer, edges: &[(Answer, u32)], deed: Deed) -> Step {
        match edges.binary_search_by(|edge| edge.0.cmp(&answer)) {
            Ok(at) => self.go_on(program, agent, edges[at].1, deed),
            Err(_) => Step::Lost(self.nodes[agent], Some(answer)),
        }
    }

    /// Makes the accesses from a node on.
    fn go_on(&mut self, program: &Program, agent: usize, to: u32, deed: Deed) -> Step {
        match self.run_on(program, agent, to) {
            Reached::Node(node) => {
                self.nodes[agent] = node;
                Step::Leads(deed)
            }
            Reached::Lost(node) => Step::Lost(node, None),
        }
    }

    fn run_on(&mut self, program: &Program, agent: usize, from: u32) -> Reached {
        self.recent[agent].clear();
        let mut number = from;
        while let Node::Access { range, writes, is_alone: false, edges } = program.node(agent, number) {
            match self.make(range, writes.as_deref(), edges) {
                Some(to) => {
                    self.recent[agent].push(number);
                    number = to;
                }
                None => return Reached::Lost(number),
            }
        }
        Reached::Node(number)
    }

    /// Makes an ordinary access, and returns where its result leads.
    fn make(&mut self, range: &Range<usize>, writes: Option<&[u8]>, edges: &[(Vec<u8>, u32)]) -> Option<u32> {
        if let Some(bytes) = writes {
            self.bytes[range.clone()].copy_from_slice(bytes);
            return Some(edges[0].1);
        }
        let read = &self.bytes[range.clone()];
        edges.binary_search_by(|edge| edge.0.as_slice().cmp(read)).ok().map(|at| edges[at].1)
    }

    /// Has an agent's call act, or the agent leave its wait. The checks come in the standard's order.
    fn call(&mut self, program: &Program, agent: usize, call: &Call) -> Deed {
        if self.is_woken(agent) {
            self.woken &= !(1 << agent);
            return Deed::Leave(Answer::Ok);
        }
        let view = &program.views[call.view];
        let is_taken = match call.act {
            Act::Wait { .. } | Act::Notify { .. } => view.kind.is_waitable(),
            _ => view.kind.is_atomic(),
        };
        if !is_taken {
            return Deed::Act(Answer::TypeError);
        }
        let index = match usize::try_from(call.index) {
            Ok(index) if index < view.length => index,
            _ => return Deed::Act(Answer::RangeError),
        };
        let place = program.blocks[view.block].start + view.offset + index * view.kind.size();
        let bytes = &mut self.bytes[place..place + view.kind.size()];
        match call.act {
            Act::Notify { count } => Deed::Act(self.notify(place as u32, count)),
            Act::Wait { value, .. } => match raw(value, view.kind) {
                None => Deed::Act(Answer::TypeError),
                Some(_) if !program.agents[agent].can_block => Deed::Act(Answer::TypeError),
                Some(value) if value != element(bytes) => Deed::Act(Answer::NotEqual),
                Some(_) => {
                    self.line.push(Waiter { agent: agent as u32, place: place as u32 });
                    Deed::Wait
                }
            },
            act => Deed::Act(access(bytes, act, view.kind).unwrap_or(Answer::TypeError)),
        }
    }

    /// Wakes those who have waited longest at a place.
    fn notify(&mut self, place: u32, count: Option<i64>) -> Answer {
        let (woken, most, mut many) = (&mut self.woken, count.unwrap_or(i64::MAX), 0);
        self.line.retain(|waiter| {
            let is_woken = waiter.place == place && many < most;
            if is_woken {
                *woken |= 1 << waiter.agent;
                many += 1;
            }
            !is_woken
        });
        Answer::Value(crate::plan::Operand::Number(many))
    }
}

/// How many bytes each number of a row has.
#[derive(Clone, Copy)]
pub enum Width {
    One,
    Two,
    Four,
}

impl Width {
    /// The least width for the bytes and nodes of a program.
    pub fn of(program: &Program) -> Width {
        let nodes = program.automata.iter().map(Vec::len).max().unwrap_or(0);
        match nodes.max(program.bytes.len()) {
            0..=0xFF => Width::One,
            0x100..=0xFFFF => Width::Two,
            _ => Width::Four,
        }
    }

    fn push(self, row: &mut Vec<u8>, number: u32) {
        match self {
            Width::One => row.push(number as u8),
            Width::Two => row.extend_from_slice(&(number as u16).to_le_bytes()),
            Width::Four => row.extend_from_slice(&number.to_le_bytes()),
        }
    }

    fn first(self, row: &mut &[u8]) -> u32 {
        let (number, len) = match self {
            Width::One => (row[0].into(), 1),
            Width::Two => (u16::from_le_bytes([row[0], row[1]]).into(), 2),
            Width::Four => (u32::from_le_bytes([row[0], row[1], row[2], row[3]]), 4),
        };
        *row = &row[len..];
        number
    }
}

impl World {
    pub fn write(&self, width: Width, row: &mut Vec<u8>) {
        row.clear();
        row.extend_from_slice(&self.bytes);
        row.extend_from_slice(&self.woken.to_le_bytes());
        for &node in &self.nodes {
            width.push(row, node);
        }
        width.push(row, self.line.len() as u32);
        for waiter in &self.line {
            width.push(row, waiter.agent);
            width.push(row, waiter.place);
        }
        for recent in &self.recent {
            width.push(row, recent.len() as u32);
            for &node in recent {
                width.push(row, node);
            }
        }
    }

    /// Becomes the state of a row.
    pub fn read(&mut self, width: Width, row: &[u8]) {
        let (bytes, mut rest) = row.split_at(self.bytes.len());
        self.bytes.copy_from_slice(bytes);
        self.woken = u16::from_le_bytes([rest[0], rest[1]]);
        rest = &rest[2..];
        for node in &mut self.nodes {
            *node = width.first(&mut rest);
        }
        self.line.clear();
        for _ in 0..width.first(&mut rest) {
            let agent = width.first(&mut rest);
            self.line.push(Waiter { agent, place: width.first(&mut rest) });
        }
        for recent in &mut self.recent {
            recent.clear();
            for _ in 0..width.first(&mut rest) {
                recent.push(width.first(&mut rest));
            }
        }
    }
}
