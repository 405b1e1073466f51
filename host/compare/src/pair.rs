//! Both units side by side: each event goes to both, and everything is compared.

use crate::board::header::{self, CONFIG, GROUPS, KEPT, MEANS, REPLY};
use crate::board::{room, valid, Equipment, Lent, Turned, Unit};
use crate::event::{hex, Change, Event, Hold};
use crate::faults::Fault;
use crate::image::{config_of, difference, memory_of, put_file};
use crate::means::{self, put_samples};
use crate::places::Places;
use crate::scene::Scene;
use independent::{Action, Answer, Config, Sampled, State};

/// The longest buffer lent.
pub const BUFFER: usize = REPLY + 80;

/// What stands in a buffer before an event, no two neighbours alike.
const PATTERN: [u8; BUFFER] = pattern();

const fn pattern() -> [u8; BUFFER] {
    let mut made = [0; BUFFER];
    let mut i = 0;
    while i < BUFFER {
        made[i] = (i * 7 + 3) as u8;
        i += 1;
    }
    made
}

/// The proved unit, the independent one, and what each is lent.
pub struct Pair {
    pub config: Config,
    pub state: State,
    pub lent: Lent,
    pub equipment: Equipment,
    pub places: Places,
    pub unit: Box<Unit>,
    /// The proved unit's kept numbers before the latest event.
    pub before: [u16; KEPT],
    /// The words and the changed contacts of the groups before the latest event.
    pub groups: [(u16, u8); GROUPS],
    /// How many samples of each mean were in before the latest event.
    pub taken: [u16; MEANS],
    /// What the latest sample came to, if that was the latest event and it was taken.
    pub sampled: Option<Sampled>,
    /// Whether the file of the latest record to store was full.
    pub full: bool,
    /// The configuration as characters: no event changes one.
    chars: [u8; CONFIG],
    params: Vec<u8>,
    /// The characters of records as the latest event left them, those of no record and those behind what is asked for too.
    records: Vec<u8>,
    reply: [u8; BUFFER],
    other: [u8; BUFFER],
    sent: usize,
    fault: Option<&'static Fault>,
}

/// Whether a record is to be stored in a file that is full.
fn full(event: &Event, state: &State) -> bool {
    let held = |file: &u8| state.files.get(usize::from(*file)).map_or(0, Vec::len);
    matches!(event, Event::Store { file, .. } if held(file) == header::ROOM)
}

impl Pair {
    /// Both units as a scene has them; a fresh unit is made by the proved entry out of any memory.
    pub fn new(scene: &Scene, fault: Option<&'static Fault>) -> Result<Pair, String> {
        let mut unit = Unit::filled(scene.fill);
        let chars = scene.equipment.chars();
        let config = config_of(&scene.equipment);
        if valid(&chars) != u8::from(config.valid()) {
            return Err(format!("at the start: valid is {}", valid(&chars)));
        }
        let places = Places::of(&scene.equipment);
        if room(&chars) != places.room as u64 {
            return Err(format!("at the start: room is {}", room(&chars)));
        }
        unit.block.copy_from_slice(&scene.params);
        if scene.fresh {
            unit.block[..scene.lent.block].fill(scene.fill);
            unit.fresh(scene.lent, &chars);
        } else {
            unit.memory = memory_of(&chars, &scene.state);
            (0..header::FILES).for_each(|file| put_file(&scene.state, &places, &mut unit, file));
            put_samples(&scene.state, &places, &mut unit);
        }
        if let Some(found) = difference(&chars, &places, &scene.state, &scene.params, &unit) {
            return Err(format!("at the start: {found}"));
        }
        Ok(Pair {
            config,
            state: scene.state.clone(),
            lent: scene.lent,
            equipment: scene.equipment.clone(),
            places,
            before: unit.memory.all_kept(),
            groups: [(0, 0); GROUPS],
            taken: [0; MEANS],
            sampled: None,
            full: false,
            chars,
            params: scene.params.clone(),
            records: unit.records.to_vec(),
            unit,
            reply: PATTERN,
            other: PATTERN,
            sent: 0,
            fault,
        })
    }

    /// The reply to the latest stretch.
    pub fn reply(&self) -> &[u8] {
        &self.reply[..self.sent]
    }

    /// Hands an event to both; tells how it ended, or where they differ. A change of the kept state ends as nothing.
    pub fn take(&mut self, event: &Event) -> Result<Option<Answer>, String> {
        if let Event::Change(change) = event {
            self.change(change);
            return Ok(None);
        }
        let sent = self.sent;
        self.reply[..sent].copy_from_slice(&PATTERN[..sent]);
        self.other[..sent].copy_from_slice(&PATTERN[..sent]);
        self.before = self.unit.memory.all_kept();
        self.groups = std::array::from_fn(|g| (self.state.words[g], self.state.changed[g]));
        self.taken = means::taken(&self.unit.memory);
        self.sampled = None;
        self.full = full(event, &self.state);
        let mut turned = proved(&mut self.unit, self.lent, &mut self.reply, event);
        if let Some(fault) = self.fault {
            (fault.plant)(
                event,
                &self.before,
                &self.places,
                &mut self.unit,
                &mut turned,
                &mut self.reply,
            );
        }
        let answer = self.independent(event);
        self.sent = answer.sent;
        match self.differs(event, &turned, &answer) {
            Some(found) => Err(found),
            None => Ok(Some(answer)),
        }
    }

    fn independent(&mut self, event: &Event) -> Answer {
        let params = &mut self.params[..self.lent.block];
        let (c, s) = (&self.config, &mut self.state);
        let outcome = match event {
            event if self.lent.records < self.places.room => too_few_records(event),
            Event::Stretch { bytes, room, lag } => {
                return independent::stretch(c, s, params, &mut self.other[..*room], bytes, *lag)
            }
            Event::Elapsed(ms) => independent::elapsed(c, s, params, *ms),
            Event::Word(number, word) => independent::set_word(c, s, params, *number, *word),
            Event::Contact(number, on) => independent::contact(c, s, params, *number, *on),
            Event::Pulses(number, count) => independent::pulses(c, s, params, *number, *count),
            Event::Value(number, value) => independent::set_value(c, s, params, *number, *value),
            Event::Sample(number) => match independent::sample(c, s, params, *number) {
                Ok(sampled) => {
                    self.sampled = Some(sampled);
                    header::DONE as u8
                }
                Err(refused) => refused,
            },
            Event::Store {
                file,
                event,
                values,
            } => independent::store(c, s, params, *file, *event, values),
            Event::Change(_) => unreachable!("a change is no event of a unit"),
        };
        Answer {
            outcome,
            action: None,
            sent: 0,
        }
    }

    fn differs(&mut self, event: &Event, turned: &Turned, answer: &Answer) -> Option<String> {
        if turned.outcome != answer.outcome {
            return Some(format!(
                "outcome: proved {}, independent {}",
                turned.outcome, answer.outcome
            ));
        }
        let action = match answer.action {
            None => (0, 0),
            Some(Action { output, close }) => (1 + u8::from(close), output),
        };
        if (turned.action, turned.output) != action {
            return Some(format!(
                "action: proved {:?}, independent {action:?}",
                (turned.action, turned.output)
            ));
        }
        if turned.sampled != means::characters(self.sampled) {
            return Some(format!(
                "sample: proved {}, independent {:?}",
                hex(&turned.sampled),
                self.sampled
            ));
        }
        if turned.sent != answer.sent {
            return Some(format!(
                "sent: proved {}, independent {}",
                turned.sent, answer.sent
            ));
        }
        if self.reply[..self.sent] != self.other[..self.sent] {
            return Some(format!(
                "reply: proved {}, independent {}",
                hex(self.reply()),
                hex(&self.other[..self.sent])
            ));
        }
        if self.reply[self.sent..] != PATTERN[self.sent..] {
            return Some("the buffer behind the reply was written".to_string());
        }
        difference(
            &self.chars,
            &self.places,
            &self.state,
            &self.params,
            &self.unit,
        )
        .or_else(|| self.dropped_differ(event))
        .or_else(|| self.records_differ(event, answer.outcome))
    }

    /// The call that tells how many records were dropped, of the file of a record to store.
    fn dropped_differ(&self, event: &Event) -> Option<String> {
        let Event::Store { file, .. } = event else {
            return None;
        };
        let (proved, kept) = (self.unit.memory.dropped(*file), &self.state.dropped);
        let independent = kept.get(usize::from(*file)).copied().unwrap_or(0);
        (proved != independent)
            .then(|| format!("dropped: proved {proved}, independent {independent}"))
    }

    /// Only a record stored or released may change characters of records, those of no record too, and only a sample those of its window;
    /// nothing may those behind what is asked for.
    fn records_differ(&mut self, event: &Event, outcome: u8) -> Option<String> {
        let moved = match event {
            Event::Stretch { bytes, .. } => {
                let moves = outcome == 0 && bytes[2] == 0x04 && bytes[3] & 0x40 != 0;
                moves.then_some(0..self.places.records)
            }
            Event::Store { .. } => (outcome == 0).then_some(0..self.places.records),
            Event::Sample(number) => means::place_of(self, *number)
                .filter(|_| outcome == 0)
                .and_then(|place| self.places.window(place)),
            _ => return None,
        };
        let (was, is) = (&mut self.records, &self.unit.records);
        if let Some(part) = moved {
            was[part.clone()].copy_from_slice(&is[part]);
        }
        (!same(was, is)).then(|| "a character of no record or sample changed".to_string())
    }

    /// Changes the kept state of both.
    pub fn change(&mut self, change: &Change) {
        let (s, u) = (&mut self.state, &mut self.unit);
        match change {
            Change::Clock(clock) => s.clock = *clock,
            Change::Hold(hold) => {
                s.select = if let Hold::Held(select) = hold {
                    Some(*select)
                } else {
                    None
                };
                s.timed_out = if let Hold::TimedOut(master) = hold {
                    Some(*master)
                } else {
                    None
                };
            }
            Change::Write(write) => s.write = *write,
            Change::Memory(memory) => s.history = *memory,
            Change::Bits { bit7, bit3, bit2 } => (s.bit7, s.bit3, s.bit2) = (*bit7, *bit3, *bit2),
            Change::Port { silence, mark } => (s.silence, s.mark) = ((*silence).into(), *mark),
            Change::Word(number, word) => s.words[usize::from(*number)] = *word,
            Change::Changed(group, bits) => s.changed[usize::from(*group)] = *bits,
            Change::Value(number, value) => s.values[usize::from(*number)] = *value,
            Change::Samples(number, samples) => {
                s.samples[usize::from(*number)] = samples.clone();
                put_samples(s, &self.places, u);
                self.records.copy_from_slice(&u.records);
            }
            Change::Fixed(at, bytes) => put_in_fixed(s, *at, bytes),
            Change::Block(at, bytes) => self.params[*at..*at + bytes.len()].copy_from_slice(bytes),
            Change::Records(file, held) => {
                s.files[*file] = held.clone();
                put_file(s, &self.places, u, *file);
                self.records.copy_from_slice(&u.records);
            }
            Change::Lent(lent) => self.lent = *lent,
        }
        u.memory = memory_of(&self.chars, s);
        u.block.copy_from_slice(&self.params);
    }
}

/// With too few characters of records no event is taken, and a buffer that is too short is told first.
fn too_few_records(event: &Event) -> u8 {
    match event {
        Event::Stretch { room, .. } if *room < REPLY => header::BUFFER_SHORT as u8,
        _ => header::NOT_CONFIGURED as u8,
    }
}

/// Hands an event to the proved unit alone; a stretch is lent the front of the buffer.
pub fn proved(u: &mut Unit, lent: Lent, buffer: &mut [u8], event: &Event) -> Turned {
    Turned::silent(match event {
        Event::Stretch { bytes, room, lag } => {
            return u.stretch(lent, &mut buffer[..*room], bytes, *lag)
        }
        Event::Elapsed(ms) => u.elapsed(lent, *ms),
        Event::Word(number, word) => u.set_word(lent, *number, *word),
        Event::Contact(number, state) => u.contact(lent, *number, *state),
        Event::Pulses(number, count) => u.pulses(lent, *number, *count),
        Event::Value(number, value) => u.set_value(lent, *number, *value),
        Event::Sample(number) => return u.sample(lent, *number),
        Event::Store {
            file,
            event,
            values,
        } => u.store(lent, *file, *event, values),
        Event::Change(_) => unreachable!("a change is no event of a unit"),
    })
}

/// Writes into whichever of the three blocks each place falls.
fn put_in_fixed(state: &mut State, at: usize, bytes: &[u8]) {
    let fixed = &mut state.fixed;
    for (place, &byte) in (header::AT_FIXED + at..).zip(bytes) {
        match place {
            header::AT_00..header::AT_03 => fixed.block_00[place - header::AT_00] = byte,
            header::AT_03..header::AT_0B => fixed.block_03[place - header::AT_03] = byte,
            _ => fixed.block_0b[place - header::AT_0B] = byte,
        }
    }
}

/// Whether all is alike: by eights and without a way out early, so it is quick under an emulator too.
fn same(a: &[u8], b: &[u8]) -> bool {
    let eights = |part: &[u8]| u64::from_le_bytes(part.try_into().expect("eight characters"));
    let differ = |(x, y)| eights(x) ^ eights(y);
    a.chunks_exact(8)
        .zip(b.chunks_exact(8))
        .map(differ)
        .fold(0, |all, one| all | one)
        == 0
}
