//! Reads a trace, a line of JSON for each event.

use std::borrow::Cow;
use std::error::Error;
use std::io::BufRead;

use serde::Deserialize;

const MAX_LINE: usize = 1024;
const AGENTS: usize = 16;
const BLOCKS: usize = 4;
const MAX_BLOCK: u32 = 1 << 16;

/// What an agent does at one moment.
#[derive(Clone, Copy)]
pub struct Event {
    pub agent: usize,
    pub range: Range,
    pub read: bool,
    pub write: bool,
    pub atomic: bool,
    /// Whether it is a critical section of the waiters where the range begins.
    pub waiters: bool,
}

/// Bytes of a block; the end isn't among them.
#[derive(Clone, Copy, PartialEq)]
pub struct Range {
    pub block: usize,
    pub begin: u32,
    pub end: u32,
}

/// A line of the trace. Some members are read only so that a line without them is refused.
#[allow(dead_code)]
#[derive(Deserialize)]
#[serde(deny_unknown_fields)]
struct EventText<'a> {
    event: usize,
    agent: usize,
    call: u64,
    #[serde(borrow)]
    does: Text<'a>,
    block: i64,
    byte: i64,
    size: i64,
    read: bool,
    write: bool,
    atomic: bool,
    waiters: bool,
    // Without `deserialize_with` serde takes a missing member for null.
    #[serde(borrow, deserialize_with = "Option::deserialize")]
    source: Option<Text<'a>>,
}

/// A string, which is borrowed from the line if it has no escapes.
#[allow(dead_code)]
#[derive(Deserialize)]
struct Text<'a>(#[serde(borrow)] Cow<'a, str>);

/// Reads a trace, and gives away each of its events in turn.
pub fn read(mut lines: impl BufRead, mut take: impl FnMut(Event)) -> Result<(), Box<dyn Error>> {
    let mut line = Vec::new();
    let mut position = 0;
    while lines.read_until(b'\n', &mut line)? > 0 {
        let text = line.strip_suffix(b"\n").unwrap_or(&line);
        take(event(text, position).map_err(|error| format!("line {}: {error}", position + 1))?);
        position += 1;
        line.clear();
    }
    Ok(())
}

fn event(line: &[u8], position: usize) -> Result<Event, Box<dyn Error>> {
    if line.len() > MAX_LINE {
        return Err("it is too long".into());
    }
    let text: EventText = serde_json::from_slice(line)?;
    if text.event != position || text.agent >= AGENTS {
        return Err("its position or its agent is wrong".into());
    }
    let EventText { agent, read, write, atomic, waiters, .. } = text;
    let range = match text.range() {
        Some(range) => range,
        None if read || write || waiters => return Err("there are no such bytes".into()),
        None => Range { block: 0, begin: 0, end: 0 },
    };
    Ok(Event { agent, range, read, write, atomic, waiters })
}

impl EventText<'_> {
    /// The bytes that are named, if they are there.
    fn range(&self) -> Option<Range> {
        let block = usize::try_from(self.block).ok().filter(|&block| block < BLOCKS)?;
        let begin = u32::try_from(self.byte).ok()?;
        let size = u32::try_from(self.size).ok().filter(|&size| size > 0)?;
        let end = begin.checked_add(size).filter(|&end| end <= MAX_BLOCK)?;
        Some(Range { block, begin, end })
    }
}

impl Event {
    pub fn is_access(&self) -> bool {
        self.read || self.write
    }

    /// Whether both are accesses of `Atomics` to the same bytes.
    pub fn is_atomic_alike(&self, other: &Event) -> bool {
        self.atomic && other.atomic && self.range == other.range
    }

    /// Whether both race if nothing orders them.
    pub fn conflicts(&self, other: &Event) -> bool {
        let accesses = self.is_access() && other.is_access() && (self.write || other.write);
        let meet = self.range.block == other.range.block
            && self.range.begin < other.range.end
            && other.range.begin < self.range.end;
        self.agent != other.agent && accesses && meet && !self.is_atomic_alike(other)
    }
}
