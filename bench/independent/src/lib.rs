//! The independent program's unit behind C functions, with the structs of bench/functions/plain.h.

use independent::{Calculation, Config, Input, Mean, Sampled, State};
use std::mem::size_of;
use std::slice;

/// The configuration as C lays it out: `struct plain_config`.
#[repr(C)]
pub struct CConfig {
    number: u16,
    length: usize,
    inputs: [u8; 256],
    outputs: [u8; 256],
    calculations: [u8; 256],
    files: [u8; 32],
    values: [u8; 32],
    oldest: [u8; 32],
    means: [u8; 16],
    sampled: [u8; 16],
    windows: [u16; 16],
}

/// How a stretch ended, as C lays it out: `struct plain_turned`.
#[repr(C)]
pub struct Turned {
    sent: usize,
    outcome: u8,
    action: u8,
    output: u8,
}

/// What a sample came to, as C lays it out: `struct plain_sampled`.
#[repr(C)]
pub struct CSampled {
    outcome: u8,
    missing: u16,
    mean: f32,
}

/// A configuration and a unit that lie together.
pub struct Unit {
    config: Config,
    state: State,
    params: Vec<u8>,
}

fn config(c: &CConfig) -> Config {
    let mut config = Config::new(c.number);
    config.inputs = c.inputs.map(|equipped| equipped != 0);
    config.outputs = c.outputs.map(|equipped| equipped != 0);
    config.calculations = c.calculations.map(|equipped| equipped != 0);
    for (file, values) in config.files.iter_mut().enumerate() {
        *values = (c.files[file] != 0).then_some(c.values[file]);
    }
    config.oldest = c.oldest.map(|keeps| keeps != 0);
    config.parameter_length = c.length;
    let used = (0..c.windows.len()).filter(|&place| c.windows[place] != 0);
    let mean = |place: usize| Mean {
        calculation: Calculation(c.means[place]),
        analog: Input(c.sampled[place]),
        n: c.windows[place],
    };
    config.means = used.map(mean).collect();
    config
}

/// A fresh unit, the caller's until `rust_end`.
#[no_mangle]
pub extern "C" fn rust_fresh(c: &CConfig) -> *mut Unit {
    let config = config(c);
    let params = vec![0; config.parameter_length];
    let state = State::fresh();
    Box::into_raw(Box::new(Unit {
        config,
        state,
        params,
    }))
}

/// # Safety
/// The caller hands over `heard` characters at `stretch` and `room` at `buffer`, which do not overlap.
#[no_mangle]
pub unsafe extern "C" fn rust_stretch(
    u: &mut Unit,
    stretch: *const u8,
    heard: usize,
    buffer: *mut u8,
    room: usize,
    lag: u32,
) -> Turned {
    let stretch = slice::from_raw_parts(stretch, heard);
    let buffer = slice::from_raw_parts_mut(buffer, room);
    let answer = independent::stretch(&u.config, &mut u.state, &mut u.params, buffer, stretch, lag);
    let (action, output) = answer
        .action
        .map_or((0, 0), |done| (1 + u8::from(done.close), done.output));
    Turned {
        sent: answer.sent,
        outcome: answer.outcome,
        action,
        output,
    }
}

#[no_mangle]
pub extern "C" fn rust_elapsed(u: &mut Unit, ms: u32) -> u8 {
    independent::elapsed(&u.config, &mut u.state, &u.params, ms)
}

#[no_mangle]
pub extern "C" fn rust_set_word(u: &mut Unit, input: u8, word: u16) -> u8 {
    independent::set_word(&u.config, &mut u.state, &u.params, input, word)
}

#[no_mangle]
pub extern "C" fn rust_contact(u: &mut Unit, contact: u8, state: u8) -> u8 {
    independent::contact(&u.config, &mut u.state, &u.params, contact, state)
}

#[no_mangle]
pub extern "C" fn rust_pulses(u: &mut Unit, input: u8, count: u16) -> u8 {
    independent::pulses(&u.config, &mut u.state, &u.params, input, count)
}

#[no_mangle]
pub extern "C" fn rust_set_value(u: &mut Unit, calculation: u8, value: u32) -> u8 {
    independent::set_value(&u.config, &mut u.state, &u.params, calculation, value)
}

#[no_mangle]
pub extern "C" fn rust_take_sample(u: &mut Unit, calculation: u8) -> CSampled {
    let sampled = independent::sample(&u.config, &mut u.state, &u.params, calculation);
    let (outcome, missing, bits) = match sampled {
        Ok(Sampled::Mean(bits)) => (0, 0, bits),
        Ok(Sampled::Missing(missing)) => (0, missing, 0),
        Err(refused) => (refused, 0, 0),
    };
    let mean = f32::from_bits(bits);
    CSampled {
        outcome,
        missing,
        mean,
    }
}

/// # Safety
/// The caller hands over `many` values at `given`.
#[no_mangle]
pub unsafe extern "C" fn rust_store_record(
    u: &mut Unit,
    file: u8,
    event: u8,
    given: *const u16,
    many: usize,
) -> u8 {
    let given = slice::from_raw_parts(given, many);
    independent::store(&u.config, &mut u.state, &u.params, file, event, given)
}

/// The same unit once more, its files with the same room, so that storing a record asks for memory where it did before.
#[cfg(feature = "repeat")]
#[no_mangle]
pub extern "C" fn rust_copy(u: &Unit) -> *mut Unit {
    let mut state = u.state.clone();
    for (file, from) in state.files.iter_mut().zip(&u.state.files) {
        file.reserve_exact(from.capacity() - from.len());
    }
    for (samples, from) in state.samples.iter_mut().zip(&u.state.samples) {
        samples.reserve_exact(from.capacity() - from.len());
    }
    Box::into_raw(Box::new(Unit {
        config: u.config.clone(),
        state,
        params: u.params.clone(),
    }))
}

/// # Safety
/// The unit is the caller's, and this is its last use.
#[cfg(feature = "repeat")]
#[no_mangle]
pub unsafe extern "C" fn rust_end(u: *mut Unit) {
    drop(Box::from_raw(u));
}

/// The bytes of the configuration, and of the unit with all that it has on the heap.
#[no_mangle]
pub extern "C" fn rust_bytes(u: &Unit, config: &mut usize) -> usize {
    let records = |file: &Vec<Vec<u8>>| {
        file.capacity() * size_of::<Vec<u8>>() + file.iter().map(Vec::capacity).sum::<usize>()
    };
    let files = u.state.files.capacity() * size_of::<Vec<Vec<u8>>>()
        + u.state.files.iter().map(records).sum::<usize>();
    let samples = |taken: &Vec<i16>| size_of::<Vec<i16>>() + 2 * taken.capacity();
    let means = u.state.samples.iter().map(samples).sum::<usize>();
    *config = size_of::<Config>() + u.config.means.capacity() * size_of::<Mean>();
    size_of::<State>() + size_of::<Vec<u8>>() + u.params.capacity() + files + means
}
