//! Accesses of two agents that conflict.

use std::ops::Range;

use crate::automata::{Node, Program};
use crate::plan::{Act, Call};
use crate::simulator::{element, raw};

use super::world::World;

/// The position of an automaton, and a node.
pub type Name = (u32, u32);

/// An open access.
pub struct Open {
    name: Name,
    range: Range<usize>,
    writes: bool,
    is_atomic: bool,
}

/// Lists an agent's open accesses: its recent ones, and what it would touch next unless it waits or was woken.
pub fn list_open(program: &Program, world: &World, agent: usize, open: &mut Vec<Open>) {
    open.clear();
    let automaton = program.agents[agent].automaton as u32;
    let at = world.nodes[agent];
    let next = (!world.is_waiting(agent) && !world.is_woken(agent)).then(|| at);
    for number in world.recent[agent].iter().copied().chain(next) {
        let name = (automaton, number);
        match program.node(agent, number) {
            Node::Access { range, writes, .. } => {
                open.push(Open { name, range: range.clone(), writes: writes.is_some(), is_atomic: false });
            }
            Node::Call { call, .. } => {
                if let Some((range, writes)) = touched(program, world, agent, call) {
                    open.push(Open { name, range, writes, is_atomic: true });
                }
            }
            Node::Finished | Node::Threw(_) => {}
        }
    }
}

/// What a call would touch now, and whether it would write; nothing if it would throw.
fn touched(program: &Program, world: &World, agent: usize, call: &Call) -> Option<(Range<usize>, bool)> {
    let view = &program.views[call.view];
    let kind = view.kind;
    let index = usize::try_from(call.index).ok().filter(|&index| index < view.length && kind.is_atomic())?;
    let place = program.blocks[view.block].start + view.offset + index * kind.size();
    let range = place..place + kind.size();
    let writes = match call.act {
        Act::Notify { .. } => return None,
        Act::Load => false,
        Act::Wait { value, .. } => {
            raw(value, kind).filter(|_| kind.is_waitable() && program.agents[agent].can_block)?;
            false
        }
        Act::Store(value) | Act::Modify(_, value) => raw(value, kind).map(|_| true)?,
        Act::CompareExchange(expected, replacement) => {
            raw(replacement, kind)?;
            raw(expected, kind)? == element(&world.bytes[range.clone()])
        }
    };
    Some((range, writes))
}

/// Gives each pair of open accesses that conflict, the smaller name first.
pub fn pairs(program: &Program, world: &World, opens: &mut Vec<Vec<Open>>, mut found: impl FnMut((Name, Name))) {
    opens.resize_with(program.agents.len(), Vec::new);
    for (agent, open) in opens.iter_mut().enumerate() {
        list_open(program, world, agent, open);
    }
    for (agent, open) in opens.iter().enumerate() {
        for other in &opens[..agent] {
            for one in open {
                for two in other {
                    if conflict(one, two) {
                        found((one.name.min(two.name), one.name.max(two.name)));
                    }
                }
            }
        }
    }
}

fn conflict(one: &Open, two: &Open) -> bool {
    let start = one.range.start.max(two.range.start);
    let end = one.range.end.min(two.range.end);
    start < end && (one.writes || two.writes) && !(one.is_atomic && two.is_atomic && one.range == two.range)
}
