//! What kinds of states there are.

use std::collections::HashMap;
use std::hash::Hash;

use crate::automata::{Node, Program};
use crate::simulator::Answer;

use super::conflict::{pairs, Name, Open};
use super::report::{answer_text, hex};
use super::world::World;

/// How many states are of a kind, the first and the last of them.
#[derive(Clone, Copy)]
pub struct Count {
    pub states: u32,
    pub first: usize,
    last: usize,
}

#[derive(Default)]
pub struct Kinds {
    pub deadlock: Option<Count>,
    pub failures: HashMap<String, Count>,
    /// By automaton, node and result.
    pub unknown: HashMap<(u32, u32, String), Count>,
    pub conflicts: HashMap<(Name, Name), Count>,
    pub finals: HashMap<Vec<u8>, Count>,
    pub final_states: u32,
    opens: Vec<Vec<Open>>,
    /// Whether the state has an act.
    has_act: bool,
}

impl Count {
    pub fn new(states: u32, first: usize) -> Count {
        Count { states, first, last: first }
    }

    /// Counts a state, once.
    fn count(&mut self, at: usize) {
        if self.last != at {
            self.states += 1;
            self.last = at;
        }
    }
}

fn note<K: Eq + Hash>(counts: &mut HashMap<K, Count>, key: K, at: usize) {
    counts.entry(key).and_modify(|count| count.count(at)).or_insert_with(|| Count::new(1, at));
}

impl Kinds {
    pub fn begin_state(&mut self) {
        self.has_act = false;
    }

    pub fn note_act(&mut self) {
        self.has_act = true;
    }

    /// There is no first state.
    pub fn lost_at_once(&mut self, program: &Program, agent: usize, node: u32, world: &World) {
        self.note_lost(program, 0, agent, node, None, world);
        for count in self.unknown.values_mut() {
            count.states = 0;
        }
    }

    /// Notes an act that leads nowhere.
    pub fn note_lost(
        &mut self,
        program: &Program,
        at: usize,
        agent: usize,
        node: u32,
        answer: Option<Answer>,
        world: &World,
    ) {
        self.has_act = true;
        let text = match (answer, program.node(agent, node)) {
            (Some(answer), _) => answer_text(answer),
            (None, Node::Access { range, .. }) => hex(&world.bytes[range.clone()]),
            (None, _) => String::new(),
        };
        note(&mut self.unknown, (program.agents[agent].automaton as u32, node, text), at);
    }

    /// Notes the other kinds of a state, all of whose acts were taken.
    pub fn note_state(&mut self, program: &Program, at: usize, world: &World) {
        let (mut is_final, mut is_failed) = (true, false);
        for (agent, &number) in world.nodes.iter().enumerate() {
            match program.node(agent, number) {
                Node::Finished => {}
                Node::Threw(text) => {
                    is_failed = true;
                    is_final = false;
                    note(&mut self.failures, text.clone(), at);
                }
                _ => is_final = false,
            }
        }
        if is_final {
            self.final_states += 1;
            match self.finals.get_mut(&world.bytes) {
                Some(count) => count.count(at),
                None => {
                    self.finals.insert(world.bytes.clone(), Count::new(1, at));
                }
            }
        } else if !is_failed && !self.has_act {
            self.deadlock.get_or_insert_with(|| Count::new(0, at)).states += 1;
        }
        let conflicts = &mut self.conflicts;
        pairs(program, world, &mut self.opens, |pair| note(conflicts, pair, at));
    }
}
