//! Makes a program of a file of automata: first what serde reads, then the program.

use std::borrow::Cow;
use std::collections::HashMap;
use std::error::Error;
use std::ops::Range;

use serde::Deserialize;

use crate::plan::{Call, Operand, View};
use crate::script::{ensure, named_views, CallText, ViewText};
use crate::simulator::Answer;

const MAX_TEXT: usize = 1 << 24;
const MAX_BLOCK: usize = 1 << 16;
const MAX_NODES: usize = 1 << 18;

/// Agents that follow automata, and what they share.
pub struct Program {
    /// The bytes of all blocks, one after another.
    pub bytes: Vec<u8>,
    /// Where each block lies in them.
    pub blocks: Vec<Range<usize>>,
    pub views: Vec<View>,
    pub automata: Vec<Vec<Node>>,
    pub agents: Vec<Agent>,
}

pub struct Agent {
    pub automaton: usize,
    pub can_block: bool,
}

pub enum Node {
    Call {
        call: Call,
        edges: Vec<(Answer, u32)>,
    },
    /// An ordinary read or write of bytes among those of all blocks.
    Access {
        range: Range<usize>,
        writes: Option<Vec<u8>>,
        is_alone: bool,
        edges: Vec<(Vec<u8>, u32)>,
    },
    Finished,
    Threw(String),
}

#[derive(Deserialize)]
#[serde(deny_unknown_fields)]
struct FileText<'a> {
    blocks: Vec<usize>,
    initial: Option<Vec<Cow<'a, str>>>,
    #[serde(borrow)]
    views: Vec<ViewText<'a>>,
    #[serde(borrow)]
    automata: Vec<AutomatonText<'a>>,
    #[serde(borrow)]
    agents: Vec<AgentText<'a>>,
}

#[derive(Deserialize)]
#[serde(deny_unknown_fields)]
struct AutomatonText<'a> {
    #[serde(borrow)]
    name: Cow<'a, str>,
    #[serde(borrow)]
    nodes: Vec<NodeText<'a>>,
}

#[derive(Deserialize)]
#[serde(deny_unknown_fields)]
struct AgentText<'a> {
    #[serde(borrow)]
    automaton: Cow<'a, str>,
    block: bool,
}

#[derive(Deserialize)]
#[serde(deny_unknown_fields)]
struct NodeText<'a> {
    #[serde(borrow)]
    call: Option<CallText<'a>>,
    read: Option<(usize, usize, usize)>,
    write: Option<(usize, usize, String)>,
    #[serde(default)]
    alone: bool,
    finished: Option<bool>,
    threw: Option<String>,
    #[serde(default)]
    edges: Vec<(String, u32)>,
}

impl Program {
    /// Reads a file of automata.
    pub fn read(text: &[u8]) -> Result<Program, Box<dyn Error>> {
        ensure(text.len() <= MAX_TEXT, "the file is too long")?;
        let file: FileText = serde_json::from_slice(text)?;
        ensure((1..=4).contains(&file.blocks.len()), "a file has 1 to 4 blocks")?;
        ensure(file.blocks.iter().all(|&length| length <= MAX_BLOCK), "a block is too long")?;
        ensure(file.views.len() <= 64 && file.agents.len() <= 16, "there are too many views or agents")?;
        let (views, names) = named_views(&file.views, &file.blocks)?;
        let blocks = placed(&file.blocks);
        let bytes = bytes_of(&file)?;
        let mut automata = Vec::with_capacity(file.automata.len());
        let mut positions = HashMap::new();
        for text in &file.automata {
            let nodes = text.nodes.iter().map(|it| Node::new(it, &names, &blocks)).collect::<Result<Vec<_>, _>>()?;
            check_edges(&nodes)?;
            ensure(positions.insert(&*text.name, automata.len()).is_none(), "two automata have one name")?;
            automata.push(nodes);
        }
        ensure(automata.iter().map(Vec::len).sum::<usize>() <= MAX_NODES, "there are too many nodes")?;
        let agent = |text: &AgentText| {
            let automaton = *positions.get(&*text.automaton).ok_or("an agent names no automaton")?;
            Ok(Agent { automaton, can_block: text.block })
        };
        let agents = file.agents.iter().map(agent).collect::<Result<_, Box<dyn Error>>>()?;
        Ok(Program { bytes, blocks, views, automata, agents })
    }

    pub fn node(&self, agent: usize, number: u32) -> &Node {
        &self.automata[self.agents[agent].automaton][number as usize]
    }
}

impl Node {
    fn new(text: &NodeText, views: &HashMap<&str, usize>, blocks: &[Range<usize>]) -> Result<Node, Box<dyn Error>> {
        match (&text.call, &text.read, &text.write, text.finished, &text.threw) {
            (Some(call), None, None, None, None) => {
                let edge = |(answer, to): &(String, u32)| Ok((answer_of(answer)?, *to));
                let edges = sorted(text.edges.iter().map(edge).collect::<Result<_, Box<dyn Error>>>()?)?;
                Ok(Node::Call { call: Call::new(call, views)?, edges })
            }
            (None, Some((block, byte, len)), None, None, None) => {
                let range = within(blocks, *block, *byte, *len)?;
                let edge = |(answer, to): &(String, u32)| Ok((hex(answer)?, *to));
                let edges = sorted(text.edges.iter().map(edge).collect::<Result<_, Box<dyn Error>>>()?)?;
                Ok(Node::Access { range, writes: None, is_alone: text.alone, edges })
            }
            (None, None, Some((block, byte, written)), None, None) => {
                let written = hex(written)?;
                let range = within(blocks, *block, *byte, written.len())?;
                ensure(text.edges.len() == 1 && text.edges[0].0.is_empty(), "a write has one edge")?;
                let edges = vec![(Vec::new(), text.edges[0].1)];
                Ok(Node::Access { range, writes: Some(written), is_alone: text.alone, edges })
            }
            (None, None, None, Some(true), None) => Ok(Node::Finished),
            (None, None, None, None, Some(thrown)) => Ok(Node::Threw(thrown.clone())),
            _ => Err("a node is one thing".into()),
        }
    }

    /// Whether its access is made in the act before it.
    pub fn is_within_act(&self) -> bool {
        matches!(self, Node::Access { is_alone: false, .. })
    }
}

/// The places of blocks of these lengths, one after another.
fn placed(lengths: &[usize]) -> Vec<Range<usize>> {
    let mut start = 0;
    let range = |length: &usize| {
        let range = start..start + length;
        start = range.end;
        range
    };
    lengths.iter().map(range).collect()
}

/// The bytes of all blocks before the first act.
fn bytes_of(file: &FileText) -> Result<Vec<u8>, Box<dyn Error>> {
    let zeros = vec![0; file.blocks.iter().sum()];
    let texts = match &file.initial {
        Some(texts) => texts,
        None => return Ok(zeros),
    };
    let blocks = texts.iter().map(|text| hex(text)).collect::<Result<Vec<_>, _>>()?;
    ensure(blocks.iter().map(Vec::len).eq(file.blocks.iter().copied()), "a block has other bytes")?;
    Ok(blocks.concat())
}

/// The place of a range of a block among the bytes of all.
fn within(blocks: &[Range<usize>], block: usize, byte: usize, len: usize) -> Result<Range<usize>, Box<dyn Error>> {
    let place = blocks.get(block).ok_or("an access names no block")?;
    ensure(byte <= place.len() && len <= place.len() - byte, "a range lies outside its block")?;
    Ok(place.start + byte..place.start + byte + len)
}

/// Edges in the order of their answers, which are different.
fn sorted<A: Ord>(mut edges: Vec<(A, u32)>) -> Result<Vec<(A, u32)>, Box<dyn Error>> {
    edges.sort();
    ensure(edges.windows(2).all(|two| two[0].0 != two[1].0), "a node has two edges for one answer")?;
    Ok(edges)
}

/// Each edge leads to a node, and no segment goes back.
fn check_edges(nodes: &[Node]) -> Result<(), Box<dyn Error>> {
    for (number, node) in nodes.iter().enumerate() {
        let targets: Vec<u32> = match node {
            Node::Call { edges, .. } => edges.iter().map(|edge| edge.1).collect(),
            Node::Access { edges, .. } => edges.iter().map(|edge| edge.1).collect(),
            Node::Finished | Node::Threw(_) => Vec::new(),
        };
        for target in targets {
            let to = nodes.get(target as usize).ok_or("an edge leads to no node")?;
            let goes_back = node.is_within_act() && to.is_within_act() && target as usize <= number;
            ensure(!goes_back, "a segment goes back")?;
        }
    }
    Ok(())
}

/// The answer that an edge of a call spells.
fn answer_of(text: &str) -> Result<Answer, Box<dyn Error>> {
    Ok(match text {
        "ok" => Answer::Ok,
        "not-equal" => Answer::NotEqual,
        "timed-out" => Answer::TimedOut,
        "TypeError" => Answer::TypeError,
        "RangeError" => Answer::RangeError,
        _ => match text.strip_suffix('n') {
            Some(digits) => Answer::Value(Operand::BigInt(digits.parse()?)),
            None => Answer::Value(Operand::Number(text.parse()?)),
        },
    })
}

/// The bytes that two hexadecimal digits each spell.
fn hex(text: &str) -> Result<Vec<u8>, Box<dyn Error>> {
    let digit = |byte: u8| match byte {
        b'0'..=b'9' => Ok(byte - b'0'),
        b'a'..=b'f' => Ok(byte - b'a' + 10),
        _ => Err("a text isn't of hexadecimal digits"),
    };
    ensure(text.len() % 2 == 0, "a text has half a byte")?;
    text.as_bytes().chunks(2).map(|two| Ok(16 * digit(two[0])? + digit(two[1])?)).collect()
}
