//! Judges a trace for unordered accesses, by vector clocks.

use std::collections::HashMap;
use std::io::{self, Write};

use crate::shadow::{Mark, Shadow};
use crate::trace::{Event, Range};

const AGENTS: usize = 16;
const LISTED: usize = 100;

/// Of each agent how many events of the trace have passed up to its last one that is known.
#[derive(Clone, Copy, Default)]
struct Clock([usize; AGENTS]);

impl Clock {
    fn join(&mut self, other: &Clock) {
        for (mine, its) in self.0.iter_mut().zip(other.0) {
            *mine = its.max(*mine);
        }
    }
}

/// The positions of two events that nothing orders, the earlier one first.
struct Race {
    first: usize,
    second: usize,
    is_data_race: bool,
    /// What the second one knows of the first one's agent.
    known: usize,
}

pub struct Judge {
    events: Vec<Event>,
    /// What each event knows, itself among it.
    clocks: Vec<Clock>,
    /// What each agent knows.
    agents: [Clock; AGENTS],
    /// What the events knew that were among the waiters of a place.
    lines: HashMap<(usize, u32), Clock>,
    blocks: [Shadow; 4],
    races: Vec<Race>,
    more: usize,
    /// How many of these are data races.
    more_data_races: usize,
}

impl Judge {
    pub fn new() -> Self {
        Judge {
            events: Vec::new(),
            clocks: Vec::new(),
            agents: [Clock::default(); AGENTS],
            lines: HashMap::new(),
            blocks: [Shadow::new(), Shadow::new(), Shadow::new(), Shadow::new()],
            races: Vec::new(),
            more: 0,
            more_data_races: 0,
        }
    }

    pub fn has_races(&self) -> bool {
        !self.races.is_empty()
    }

    /// Judges the next event.
    pub fn add(&mut self, event: Event) {
        let mut clock = self.agents[event.agent];
        if event.waiters {
            clock.join(self.lines.entry((event.range.block, event.range.begin)).or_default());
        }
        let is_ordered = !event.is_access() || self.is_ordered(&event, &mut clock);
        if !is_ordered {
            self.find_races(&event, &clock);
        }
        let position = self.events.len();
        clock.0[event.agent] = position + 1;
        if event.is_access() {
            let (shadow, mark) = (&mut self.blocks[event.range.block], Mark { position, event });
            // All that races with an earlier access of these bytes races with an ordinary write behind it too.
            if is_ordered && event.write && !event.atomic {
                shadow.overwrite(mark);
            } else {
                shadow.mark(mark);
            }
        }
        if event.waiters {
            self.lines.insert((event.range.block, event.range.begin), clock);
        }
        self.agents[event.agent] = clock;
        self.clocks.push(clock);
        self.events.push(event);
    }

    /// Learns what the writes by `Atomics` knew that an access reads.
    /// Returns whether everything that conflicts with the access happens before it.
    fn is_ordered(&mut self, access: &Event, clock: &mut Clock) -> bool {
        let shadow = &mut self.blocks[access.range.block];
        shadow.split(access.range);
        if access.read && access.atomic {
            for write in shadow.of(access.range).filter_map(|stretch| stretch.written) {
                if self.events[write].is_atomic_alike(access) {
                    clock.join(&self.clocks[write]);
                }
            }
        }
        let mut marks = shadow.of(access.range).flat_map(|stretch| &stretch.marks);
        marks.all(|mark| mark.position < clock.0[mark.event.agent] || !mark.event.conflicts(access))
    }

    /// Finds what an access races with, by going through all events before it.
    fn find_races(&mut self, access: &Event, clock: &Clock) {
        let stretches = self.blocks[access.range.block].of(access.range);
        let written: Vec<usize> = stretches.filter_map(|stretch| stretch.written).collect();
        let second = self.events.len();
        for (first, earlier) in self.events.iter().enumerate() {
            let known = clock.0[earlier.agent];
            if first < known || !earlier.conflicts(access) {
                continue;
            }
            let is_data_race = earlier.write && (access.write || written.contains(&first));
            if self.races.len() < LISTED {
                self.races.push(Race { first, second, is_data_race, known });
            } else {
                self.more += 1;
                self.more_data_races += usize::from(is_data_race);
            }
        }
    }

    /// Writes the plain verdict.
    pub fn write(&self, out: &mut impl Write) -> io::Result<()> {
        for race in &self.races {
            self.write_race(out, race)?;
        }
        if self.more > 0 {
            let what = if self.more_data_races == 1 { "a data race" } else { "data races" };
            writeln!(out, "{} more, {} of them {what}", self.more, self.more_data_races)?;
        }
        if !self.has_races() {
            let accesses = self.events.iter().filter(|event| event.is_access());
            let agents = accesses.clone().fold(0u16, |agents, access| agents | 1 << access.agent);
            let accesses = counted(accesses.count(), "access", "es");
            writeln!(out, "no data race: {accesses} by {}", counted(agents.count_ones() as usize, "agent", "s"))?;
        }
        Ok(())
    }

    fn write_race(&self, out: &mut impl Write, race: &Race) -> io::Result<()> {
        let (first, second) = (&self.events[race.first], &self.events[race.second]);
        let (block, begin) = (first.range.block, first.range.begin.max(second.range.begin));
        let both = Range { block, begin, end: first.range.end.min(second.range.end) };
        let what = if race.is_data_race { "data race" } else { "race" };
        write!(out, "{what} at {} of block {block}: ", bytes(both))?;
        write!(out, "{} at {}, {} at {}; ", described(first), race.first, described(second), race.second)?;
        match race.known.checked_sub(1) {
            None => write!(out, "nothing of agent {}", first.agent)?,
            Some(last) => write!(out, "of agent {} what it did up to {last}", first.agent)?,
        }
        writeln!(out, " happens before {}", race.second)
    }
}

/// What an access does, in words.
fn described(access: &Event) -> String {
    let does = match (access.read, access.write) {
        (true, true) => "changes",
        (true, false) => "reads",
        (false, _) => "writes",
    };
    let by = if access.atomic { " by Atomics" } else { "" };
    format!("agent {} {does} {}{by}", access.agent, bytes(access.range))
}

fn bytes(range: Range) -> String {
    match range.end - range.begin {
        1 => format!("byte {}", range.begin),
        _ => format!("bytes {} to {}", range.begin, range.end - 1),
    }
}

fn counted(count: usize, what: &str, of_many: &str) -> String {
    format!("{count} {what}{}", if count == 1 { "" } else { of_many })
}
