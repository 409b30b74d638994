//! Writes the plain report.

use std::io::{self, Write};

use crate::plan::{Operand, Plan};
use crate::simulator::{Answer, Entry, Simulator, What};

pub struct Report<W> {
    out: W,
    entries: usize,
    digits: itoa::Buffer,
}

impl<W: Write> Report<W> {
    pub fn new(out: W) -> Self {
        Report { out, entries: 0, digits: itoa::Buffer::new() }
    }

    /// Writes the line of the next entry.
    pub fn entry(&mut self, entry: &Entry) -> io::Result<()> {
        self.number(self.entries)?;
        self.number(entry.agent)?;
        self.number(entry.call)?;
        self.entries += 1;
        match entry.what {
            What::Begin => self.out.write_all(b"begin\n"),
            What::Wait => self.out.write_all(b"wait\n"),
            What::Act(answer) => self.answer(b"act ", answer),
            What::Leave(answer) => self.answer(b"leave ", answer),
            What::Return(answer) => self.answer(b"return ", answer),
            What::Stuck(why) => {
                self.out.write_all(b"stuck ")?;
                self.out.write_all(why.as_bytes())?;
                self.out.write_all(b"\n")
            }
        }
    }

    /// Writes the lines of blocks and agents.
    pub fn finish(mut self, plan: &Plan, simulator: &Simulator) -> io::Result<()> {
        for (block, bytes) in simulator.blocks.iter().enumerate() {
            self.out.write_all(b"block ")?;
            self.number(block)?;
            let digits = |byte: &u8| [byte >> 4, byte & 15].map(|digit| b"0123456789abcdef"[usize::from(digit)]);
            let line: Vec<u8> = if bytes.is_empty() { vec![b'-'] } else { bytes.iter().flat_map(digits).collect() };
            self.out.write_all(&line)?;
            self.out.write_all(b"\n")?;
        }
        for (agent, (state, script)) in simulator.agents.iter().zip(&plan.agents).enumerate() {
            writeln!(self.out, "agent {agent} {} of {}", state.returned, script.calls.len())?;
        }
        self.out.flush()
    }

    /// Writes a number and a space.
    fn number(&mut self, number: usize) -> io::Result<()> {
        self.out.write_all(self.digits.format(number).as_bytes())?;
        self.out.write_all(b" ")
    }

    fn answer(&mut self, word: &[u8], answer: Answer) -> io::Result<()> {
        self.out.write_all(word)?;
        let text = match answer {
            Answer::Value(Operand::Number(number)) => self.digits.format(number),
            Answer::Value(Operand::BigInt(number)) => {
                self.out.write_all(self.digits.format(number).as_bytes())?;
                "n"
            }
            Answer::Ok => "ok",
            Answer::NotEqual => "not-equal",
            Answer::TimedOut => "timed-out",
            Answer::TypeError => "TypeError",
            Answer::RangeError => "RangeError",
        };
        self.out.write_all(text.as_bytes())?;
        self.out.write_all(b"\n")
    }
}
