//! A unit on the bench, with its replies taken apart and the lent buffer watched.

use independent::*;

/// The unit of every rig, as in the paper's appendix.
pub const UNIT: u16 = 1234;
/// The unit part that speaks to every unit.
pub const ALL: u16 = 0x7FF;
/// What the lent buffer holds before a stretch.
const UNWRITTEN: u8 = 0xA5;

/// A unit with everything it keeps.
#[derive(Clone)]
pub struct Rig {
    pub config: Config,
    pub state: State,
    pub params: Vec<u8>,
}

/// A reply taken apart.
#[derive(Clone, Debug, PartialEq, Eq)]
pub struct Heard {
    pub function: u8,
    pub status: u8,
    pub port: u8,
    pub data: Vec<u8>,
}

/// What a stretch gave.
#[derive(Clone, Debug, PartialEq, Eq)]
pub struct Got {
    pub outcome: u8,
    pub action: Option<Action>,
    pub reply: Option<Heard>,
    pub bytes: Vec<u8>,
}

impl Got {
    pub fn heard(&self) -> &Heard {
        self.reply.as_ref().expect("a reply")
    }

    pub fn data(&self) -> &[u8] {
        &self.heard().data
    }
}

/// A frame with right check characters.
pub fn frame(master: u8, unit: u16, function: u8, command: u8, data: &[u8]) -> Vec<u8> {
    let address = (u16::from(master) << 11 | unit).to_le_bytes();
    let count = (data.len() as u16).to_le_bytes();
    let mut bytes = vec![
        address[0], address[1], function, command, count[0], count[1],
    ];
    bytes.extend_from_slice(data);
    let check = check_word(&bytes).to_le_bytes();
    bytes.extend_from_slice(&check);
    bytes
}

/// The function character that each outcome must answer with; None where nothing is sent.
pub fn expected_function(outcome: u8, function: u8) -> Option<u8> {
    match outcome {
        0 => Some(function & 0x3F),
        6..=11 => Some(function & 0x3F | 0x40),
        12..=15 => Some(function & 0x3F | 0x80),
        _ => None,
    }
}

fn take_apart(sent: &[u8], asked: &[u8]) -> Heard {
    let (front, check) = sent.split_at(sent.len() - 2);
    assert_eq!(check_word(front).to_le_bytes(), check, "check characters");
    assert_eq!(front[..2], asked[..2], "address echoed");
    let count = u16::from_le_bytes([front[5], front[6]]);
    assert_eq!(usize::from(count), front.len() - 7, "count");
    Heard {
        function: front[2],
        status: front[3],
        port: front[4],
        data: front[7..].to_vec(),
    }
}

impl Rig {
    pub fn new(config: Config) -> Rig {
        let params = vec![0; config.parameter_length];
        Rig {
            config,
            state: State::fresh(),
            params,
        }
    }

    /// Inputs of each kind, outputs, calculations, five files and 20 parameter bytes.
    pub fn full() -> Rig {
        let mut config = Config::new(UNIT);
        for number in [0x00, 0x1F, 0x30, 0x3F, 0x40, 0x5F, 0x80, 0xFF] {
            config.inputs[number] = true;
        }
        for number in [0x00, 0x07, 0x40, 0xFF] {
            config.outputs[number] = true;
        }
        for number in [0x04, 0x15, 0x7F] {
            config.calculations[number] = true;
        }
        for (file, values) in [(0, 1), (1, 2), (5, 5), (12, 12), (31, 16)] {
            config.files[file] = Some(values);
        }
        config.parameter_length = 20;
        Rig::new(config)
    }

    /// Hands over any bytes as a stretch without a lag and checks the form of the answer.
    pub fn raw(&mut self, bytes: &[u8]) -> Got {
        self.lagged(bytes, 0)
    }

    /// As `raw`, with the milliseconds from the sync point to the idle mark.
    pub fn lagged(&mut self, bytes: &[u8], lag: u32) -> Got {
        let mut buffer = [UNWRITTEN; 600];
        let Rig {
            config,
            state,
            params,
        } = self;
        let answer = stretch(config, state, params, &mut buffer, bytes, lag);
        assert!(
            buffer[answer.sent..].iter().all(|&b| b == UNWRITTEN),
            "rest of the buffer"
        );
        let reply = (answer.sent > 0).then(|| take_apart(&buffer[..answer.sent], bytes));
        let function = bytes.get(2).copied().unwrap_or(0);
        let form = expected_function(answer.outcome, function);
        assert_eq!(
            reply.as_ref().map(|heard| heard.function),
            form,
            "form of the reply"
        );
        let bytes = buffer[..answer.sent].to_vec();
        Got {
            outcome: answer.outcome,
            action: answer.action,
            reply,
            bytes,
        }
    }

    /// Sends a frame from a master to this unit.
    pub fn send(&mut self, master: u8, function: u8, command: u8, data: &[u8]) -> Got {
        let unit = self.config.unit;
        self.raw(&frame(master, unit, function, command, data))
    }

    /// As `send`, for the outcome alone.
    pub fn ask(&mut self, master: u8, function: u8, command: u8, data: &[u8]) -> u8 {
        self.send(master, function, command, data).outcome
    }

    /// Sends a frame to all units.
    pub fn broadcast(&mut self, master: u8, function: u8, command: u8, data: &[u8]) -> u8 {
        self.raw(&frame(master, ALL, function, command, data))
            .outcome
    }

    pub fn wait(&mut self, ms: u32) -> u8 {
        elapsed(&self.config, &mut self.state, &self.params, ms)
    }

    pub fn word(&mut self, number: u8, word: u16) -> u8 {
        set_word(&self.config, &mut self.state, &self.params, number, word)
    }

    pub fn contact(&mut self, number: u8, on: u8) -> u8 {
        contact(&self.config, &mut self.state, &self.params, number, on)
    }

    pub fn value(&mut self, number: u8, bits: u32) -> u8 {
        set_value(&self.config, &mut self.state, &self.params, number, bits)
    }

    pub fn store(&mut self, file: u8, event: u8, values: &[u16]) -> u8 {
        store(
            &self.config,
            &mut self.state,
            &self.params,
            file,
            event,
            values,
        )
    }

    pub fn pulses(&mut self, number: u8, count: u16) -> u8 {
        pulses(&self.config, &mut self.state, &self.params, number, count)
    }

    pub fn sample(&mut self, number: u8) -> Result<Sampled, u8> {
        sample(&self.config, &mut self.state, &self.params, number)
    }

    /// Writes bytes into a block by WRITE and EXECUTE of a master.
    pub fn load(&mut self, master: u8, ordinal: u8, bias: u16, bytes: &[u8]) -> u8 {
        let [low, high] = bias.to_le_bytes();
        assert_eq!(self.ask(master, 0x20, 0x30, &[low, high, ordinal]), 5);
        self.ask(master, 0x20, 0x31, bytes)
    }

    /// Stores records of one event type each, in a file of one value.
    pub fn store_events(&mut self, file: u8, events: &[u8]) {
        let values = vec![0x1234; usize::from(self.config.files[usize::from(file)].unwrap())];
        for &event in events {
            assert_eq!(self.store(file, event, &values), 0);
        }
    }

    /// The event types that a file holds, oldest first.
    pub fn events(&self, file: usize) -> Vec<u8> {
        self.state.files[file]
            .iter()
            .map(|record| record[0])
            .collect()
    }

    /// Sends a frame and asserts that it changed nothing but port and bit 2.
    pub fn refused(&mut self, outcome: u8, master: u8, function: u8, command: u8, data: &[u8]) {
        let (before, params) = (self.state.clone(), self.params.clone());
        assert_eq!(self.ask(master, function, command, data), outcome);
        self.assert_only_port(&before);
        assert_eq!(self.params, params);
    }

    /// Asserts that the state is as before but for silence, mark and bit 2.
    pub fn assert_only_port(&self, before: &State) {
        let mut allowed = before.clone();
        allowed.silence = self.state.silence;
        allowed.mark = self.state.mark;
        allowed.bit2 = self.state.bit2;
        assert_eq!(self.state, allowed);
    }
}
