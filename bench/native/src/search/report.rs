//! Writes what a search found, as lines of JSON.

use std::io::{self, Write};

use crate::automata::Node;
use crate::plan::Operand;
use crate::simulator::Answer;

use super::explore::{Origin, Search, Timeouts};
use super::kinds::Count;
use super::ways::no_way_out;
use super::world::{Deed, Step, World};

const MOST_CONFLICTS: usize = 100;
const MOST_FINALS: usize = 1000;

/// Writes the result, and returns the status. The members of a line stand in the order of their names.
pub fn write(search: &Search, out: &mut impl Write) -> io::Result<u8> {
    let kinds = &search.kinds;
    let stuck = if search.is_closed { no_way_out(search) } else { None };
    first_line(search, out)?;
    shown_if(search, "deadlock", kinds.deadlock.as_ref(), out)?;
    for (text, count) in in_order(&kinds.failures) {
        let text = serde_json::to_string(text)?;
        shown(search, "\"kind\":\"failed\",", count, &format!(",\"text\":{text}"), out)?;
    }
    shown_if(search, "no way out", stuck.as_ref(), out)?;
    for ((automaton, node, text), count) in in_order(&kinds.unknown) {
        let name = format!("\"answer\":\"{text}\",\"automaton\":{automaton},\"kind\":\"unknown\",\"node\":{node},");
        shown(search, &name, count, "", out)?;
    }
    for ((one, two), count) in in_order(&kinds.conflicts).into_iter().take(MOST_CONFLICTS) {
        let pair = format!("\"kind\":\"conflict\",\"pair\":[[{},{}],[{},{}]],", one.0, one.1, two.0, two.1);
        shown(search, &pair, count, "", out)?;
    }
    for (bytes, count) in in_order(&kinds.finals).into_iter().take(MOST_FINALS) {
        let blocks: Vec<String> = search.program.blocks.iter().map(|it| hex(&bytes[it.clone()])).collect();
        let name = format!("\"blocks\":[\"{}\"],\"kind\":\"final\",", blocks.join("\",\""));
        shown(search, &name, count, "", out)?;
    }
    let is_found = kinds.deadlock.is_some() || stuck.is_some();
    Ok(if is_found || !kinds.failures.is_empty() || !kinds.conflicts.is_empty() {
        5
    } else if !kinds.unknown.is_empty() || !search.is_closed {
        6
    } else {
        0
    })
}

fn first_line(search: &Search, out: &mut impl Write) -> io::Result<()> {
    let timeouts = match search.timeouts {
        Timeouts::Early => "early",
        Timeouts::Last => "last",
        Timeouts::Never => "never",
    };
    let null = || "null".to_string();
    let (expanded, depth) = match search.cut() {
        Some((expanded, depth)) => (expanded.to_string(), depth.to_string()),
        None => (null(), null()),
    };
    let kinds = &search.kinds;
    write!(out, "{{\"acts\":{},\"closed\":{}", search.targets.len(), search.is_closed)?;
    write!(out, ",\"conflicts\":{},\"depth\":{depth},\"expanded\":{expanded}", kinds.conflicts.len())?;
    write!(out, ",\"final_states\":{},\"finals\":{}", kinds.final_states, kinds.finals.len())?;
    writeln!(out, ",\"limit\":{},\"states\":{},\"timeouts\":\"{timeouts}\"}}", search.limit, search.rows.len())
}

/// Kinds by their first states, then by their names.
fn in_order<K: Ord>(counts: &std::collections::HashMap<K, Count>) -> Vec<(&K, &Count)> {
    let mut rows: Vec<(&K, &Count)> = counts.iter().collect();
    rows.sort_by(|one, two| (one.1.first, one.0).cmp(&(two.1.first, two.0)));
    rows
}

/// Writes the line of a kind without names, if there is such a state.
fn shown_if(search: &Search, kind: &str, count: Option<&Count>, out: &mut impl Write) -> io::Result<()> {
    match count {
        Some(count) => shown(search, &format!("\"kind\":\"{kind}\","), count, "", out),
        None => Ok(()),
    }
}

/// Writes the line of a kind, with its states and the schedule to the first of them between other members.
fn shown(search: &Search, before: &str, count: &Count, behind: &str, out: &mut impl Write) -> io::Result<()> {
    write!(out, "{{{before}\"schedule\":[")?;
    let mut world = World::new(search.program);
    let is_begun = world.begin(search.program).is_ok();
    let path = if is_begun { search.path_to(count.first) } else { Vec::new() };
    for (number, act) in path.iter().enumerate() {
        let comma = if number == 0 { "" } else { "," };
        write!(out, "{comma}[{},\"{}\"]", act.agent, deed(search, &mut world, act))?;
    }
    writeln!(out, "],\"states\":{}{behind}}}", count.states)
}

/// Makes an act, and says what the agent did.
fn deed(search: &Search, world: &mut World, act: &Origin) -> String {
    let agent = usize::from(act.agent);
    let read = match search.program.node(agent, world.nodes[agent]) {
        Node::Access { range, .. } => hex(&world.bytes[range.clone()]),
        _ => String::new(),
    };
    let step = match act.by_timeout {
        true => world.time_up(search.program, agent),
        false => world.own_act(search.program, agent),
    };
    match step {
        Step::Leads(Deed::Act(answer)) => format!("act {}", answer_text(answer)),
        Step::Leads(Deed::Leave(answer)) => format!("leave {}", answer_text(answer)),
        Step::Leads(Deed::Wait) => "wait".to_string(),
        Step::Leads(Deed::Read) => format!("read {read}"),
        Step::Leads(Deed::Write) => "write".to_string(),
        Step::Absent | Step::Lost(..) => unreachable!("the act was made before"),
    }
}

pub fn answer_text(answer: Answer) -> String {
    match answer {
        Answer::Value(Operand::Number(number)) => number.to_string(),
        Answer::Value(Operand::BigInt(number)) => format!("{number}n"),
        Answer::Ok => "ok".to_string(),
        Answer::NotEqual => "not-equal".to_string(),
        Answer::TimedOut => "timed-out".to_string(),
        Answer::TypeError => "TypeError".to_string(),
        Answer::RangeError => "RangeError".to_string(),
    }
}

pub fn hex(bytes: &[u8]) -> String {
    let digits = |byte: &u8| [byte >> 4, byte & 15].map(|digit| char::from(b"0123456789abcdef"[usize::from(digit)]));
    bytes.iter().flat_map(digits).collect()
}
