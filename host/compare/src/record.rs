//! Writes runs down, so that they are replayed where neither unit of this program runs (`host/replay`): what stood in the memory, each call
//! with all that it was given, its answer, and every character that it changed.

use crate::board::header::{CONFIG, UNIT};
use crate::board::{layout, room, valid, Unit, BLOCK, RECORDS};
use crate::event::Event;
use crate::means::characters;
use crate::pair::{Pair, BUFFER};
use crate::runs::Run;
use independent::Answer;
use std::io::{Result, Write};

/// What stands first: another number where the writing changes.
const MARK: &[u8] = b"osturdam recording 5\n";
/// Equal characters that part two changes.
const APART: usize = 5;

/// What a line of the recording is.
#[derive(Clone, Copy)]
enum Line {
    End = 0,
    Begin = 1,
    Poke = 2,
    Lent = 3,
    Valid = 4,
    Fresh = 5,
    Stretch = 6,
    Elapsed = 7,
    Word = 8,
    Pulses = 9,
    Value = 10,
    Store = 11,
    Contact = 12,
    Sample = 13,
}

/// A recording that is being written.
pub struct Recording<W: Write> {
    out: W,
    calls: u32,
}

impl<W: Write> Recording<W> {
    pub fn new(mut out: W) -> Result<Self> {
        out.write_all(MARK)?;
        let mut made = Recording { out, calls: 0 };
        for size in [UNIT, BLOCK, RECORDS, BUFFER] {
            made.word(size)?;
        }
        made.word(layout().into())?;
        Ok(made)
    }

    /// How many calls stand in it.
    pub fn calls(&self) -> u32 {
        self.calls
    }

    /// A run once more, written down as it goes.
    pub fn run(&mut self, run: &Run) -> Result<()> {
        let mut pair = Pair::new(&run.scene, None).expect("the run was played before");
        self.start(run, &pair)?;
        for event in &run.events {
            let (before, lent) = (pair.unit.clone(), pair.lent);
            let answer = pair.take(event).expect("the run was played before");
            match answer {
                None => self.pokes(&before, &pair.unit)?,
                Some(answer) => {
                    self.given(event)?;
                    self.answer(event, &answer, &pair)?;
                    self.changes(&before, &pair.unit)?;
                }
            }
            if pair.lent != lent {
                self.lent(&pair)?;
            }
        }
        Ok(())
    }

    pub fn end(&mut self) -> Result<()> {
        self.line(Line::End)?;
        self.out.write_all(&self.calls.to_le_bytes())?;
        self.out.flush()
    }

    /// The memory that a run starts from; a fresh unit is made by its own call.
    fn start(&mut self, run: &Run, pair: &Pair) -> Result<()> {
        let scene = &run.scene;
        let chars = scene.equipment.chars();
        self.line(Line::Begin)?;
        self.out.write_all(&[scene.fill])?;
        self.lent(pair)?;
        self.line(Line::Valid)?;
        self.out.write_all(&chars)?;
        self.out.write_all(&[valid(&chars)])?;
        self.out.write_all(&(room(&chars) as u32).to_le_bytes())?;
        self.calls += 1;
        let mut before = Unit::filled(scene.fill);
        if !scene.fresh {
            return self.pokes(&before, &pair.unit);
        }
        let lent = scene.lent.block;
        before.block[lent..].copy_from_slice(&scene.params[lent..]);
        self.pokes(&Unit::filled(scene.fill), &before)?;
        self.fresh(&chars)?;
        self.changes(&before, &pair.unit)
    }

    fn fresh(&mut self, chars: &[u8; CONFIG]) -> Result<()> {
        self.line(Line::Fresh)?;
        self.calls += 1;
        self.out.write_all(chars)
    }

    fn lent(&mut self, pair: &Pair) -> Result<()> {
        self.line(Line::Lent)?;
        self.word(pair.lent.block)?;
        self.word(pair.lent.records)
    }

    /// The call and what it is given.
    fn given(&mut self, event: &Event) -> Result<()> {
        self.calls += 1;
        match event {
            Event::Stretch { bytes, room, lag } => {
                self.line(Line::Stretch)?;
                self.word(*room)?;
                self.out.write_all(&lag.to_le_bytes())?;
                self.out.write_all(&(bytes.len() as u32).to_le_bytes())?;
                self.out.write_all(bytes)
            }
            Event::Elapsed(ms) => {
                self.line(Line::Elapsed)?;
                self.out.write_all(&ms.to_le_bytes())
            }
            Event::Word(number, word) => self.point(Line::Word, *number, &word.to_le_bytes()),
            Event::Contact(number, state) => self.point(Line::Contact, *number, &[*state]),
            Event::Pulses(number, count) => self.point(Line::Pulses, *number, &count.to_le_bytes()),
            Event::Value(number, value) => self.point(Line::Value, *number, &value.to_le_bytes()),
            Event::Sample(number) => self.point(Line::Sample, *number, &[]),
            Event::Store {
                file,
                event,
                values,
            } => {
                self.line(Line::Store)?;
                self.out.write_all(&[*file, *event])?;
                self.word(values.len())?;
                values.iter().try_for_each(|&v| self.word(v.into()))
            }
            Event::Change(_) => unreachable!("a change is no call"),
        }
    }

    fn point(&mut self, line: Line, number: u8, chars: &[u8]) -> Result<()> {
        self.line(line)?;
        self.out.write_all(&[number])?;
        self.out.write_all(chars)
    }

    /// The outcome; of a stretch also what it does and sends, of a sample the mean or how many are missing.
    fn answer(&mut self, event: &Event, answer: &Answer, pair: &Pair) -> Result<()> {
        self.out.write_all(&[answer.outcome])?;
        if matches!(event, Event::Sample(_)) {
            return self.out.write_all(&characters(pair.sampled));
        }
        if !matches!(event, Event::Stretch { .. }) {
            return Ok(());
        }
        let action = answer
            .action
            .as_ref()
            .map_or([0, 0], |a| [1 + u8::from(a.close), a.output]);
        self.out.write_all(&action)?;
        self.word(answer.sent)?;
        self.out.write_all(pair.reply())
    }

    /// What was changed between two calls.
    fn pokes(&mut self, before: &Unit, after: &Unit) -> Result<()> {
        self.line(Line::Poke)?;
        self.changes(before, after)
    }

    /// Where two memories differ, part by part: region, place, length and the characters of the second; a region of 255 ends them.
    fn changes(&mut self, before: &Unit, after: &Unit) -> Result<()> {
        self.changed(0, &before.memory.chars, &after.memory.chars)?;
        self.changed(1, &before.block, &after.block)?;
        self.changed(2, &before.records, &after.records)?;
        self.out.write_all(&[255])
    }

    fn changed(&mut self, region: u8, before: &[u8], after: &[u8]) -> Result<()> {
        let mut at = 0;
        while let Some(first) = (before[at..] != after[at..]).then(|| next(before, after, at)) {
            let mut end = first + 1;
            at = end;
            while at < after.len() && at < end + APART {
                at += 1;
                if before[at - 1] != after[at - 1] {
                    end = at;
                }
            }
            self.out.write_all(&[region])?;
            self.word(first)?;
            self.word(end - first)?;
            self.out.write_all(&after[first..end])?;
        }
        Ok(())
    }

    fn line(&mut self, line: Line) -> Result<()> {
        self.out.write_all(&[line as u8])
    }

    fn word(&mut self, number: usize) -> Result<()> {
        let word = u16::try_from(number).expect("what is set aside is less than 64 KB");
        self.out.write_all(&word.to_le_bytes())
    }
}

/// The first place from another on in which two parts differ.
fn next(before: &[u8], after: &[u8], from: usize) -> usize {
    let found = (from..after.len()).find(|&i| before[i] != after[i]);
    found.expect("they differ")
}
