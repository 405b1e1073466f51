//! Where a run starts: a random configuration, and a kept state of every shape that fits it.

use crate::board::header::{self, CALCULATIONS, FILES, INPUTS, MEANS};
use crate::board::{Equipment, Lent, BLOCK, RECORDS};
use crate::means::{self, Place};
use crate::places::Places;
use crate::rng::Rng;
use crate::shapes;
use independent::State;

/// A configuration, a kept state and what is lent.
#[derive(Clone)]
pub struct Scene {
    pub equipment: Equipment,
    pub state: State,
    pub params: Vec<u8>,
    pub lent: Lent,
    /// What stands in memory that nothing was put into.
    pub fill: u8,
    /// Whether the proved unit is made by its own entry.
    pub fresh: bool,
    /// The configuration's fault, as an index of `FAULTY`.
    pub faulty: Option<usize>,
}

impl Scene {
    /// A fresh unit of a random configuration.
    pub fn fresh(rng: &mut Rng) -> Scene {
        let equipment = equipment(rng);
        let lent = Lent {
            block: equipment.length.into(),
            records: room(rng, Places::of(&equipment).room),
        };
        Scene {
            equipment,
            state: State::fresh(),
            params: vec![0; BLOCK],
            lent,
            fill: rng.byte(),
            fresh: true,
            faulty: None,
        }
    }

    /// A unit of a random configuration in the middle of its life.
    pub fn random(rng: &mut Rng) -> Scene {
        let mut scene = Scene::fresh(rng);
        scene.fresh = false;
        rng.fill(&mut scene.params);
        scene.state = shapes::state(rng, &scene.equipment);
        scene
    }

    /// A unit whose configuration is not valid in one thing.
    pub fn faulty(rng: &mut Rng) -> Scene {
        let mut scene = Scene::random(rng);
        let fault = rng.below(FAULTY.len());
        (FAULTY[fault].1)(rng, &mut scene);
        scene.faulty = Some(fault);
        scene
    }
}

type Spoil = fn(&mut Rng, &mut Scene);

/// The ways in which a configuration is not valid.
pub const FAULTY: [(&str, Spoil); 13] = [
    ("unit over 7FEh", |rng, s| {
        s.equipment.unit = rng.pick(&[0x7FF, 0x800, 0xFFFF])
    }),
    ("input in 20h to 2Fh", |rng, s| {
        s.equipment.inputs[rng.between(0x20, 0x2F)] = 1
    }),
    ("input in 60h to 7Fh", |rng, s| {
        s.equipment.inputs[rng.between(0x60, 0x7F)] = 1
    }),
    ("calculation over 7Fh", |rng, s| {
        s.equipment.calculations[rng.between(0x80, 0xFF)] = 1
    }),
    ("file of 0 values", |rng, s| {
        equip_file(s, rng.below(FILES), 0)
    }),
    ("file of over 16 values", |rng, s| {
        equip_file(s, rng.below(FILES), rng.pick(&[17, 18, 128, 255]))
    }),
    ("block over 512", |rng, s| {
        s.lent.block = rng.pick(&[header::BLOCK + 1, header::BLOCK + 2, BLOCK]);
        s.equipment.length = s.lent.block as u16;
    }),
    ("block far over 512", |rng, s| {
        s.equipment.length = rng.pick(&[0x300, 0x8000, 0xFFFF])
    }),
    ("mean over another number of samples", |rng, s| {
        let window = rng.pick(&[3, 5, 255, 257, 512, 0x8000, 0xFFFF]);
        spoil_mean(rng, s, |mean| mean.window = window);
    }),
    ("mean named twice", |rng, s| {
        let (one, other) = (rng.below(MEANS / 2), rng.between(MEANS / 2, MEANS - 1));
        let mean = equip_mean(s, one);
        s.equipment.means[other] = Place {
            window: rng.pick(&[1, 2, 256]),
            ..mean
        };
    }),
    ("mean of a calculation not equipped", |rng, s| {
        let number = rng.byte();
        s.equipment.calculations[usize::from(number)] = 0;
        spoil_mean(rng, s, |mean| mean.calculation = number);
    }),
    ("mean of an analog not equipped", |rng, s| {
        let number = rng.between(0x80, 0xFF) as u8;
        s.equipment.inputs[usize::from(number)] = 0;
        spoil_mean(rng, s, |mean| mean.analog = number);
    }),
    ("mean of an input of another kind", |rng, s| {
        let number = rng.pick(&[0x00, 0x1F, 0x30, 0x3F, 0x40, 0x5F]);
        s.equipment.inputs[usize::from(number)] = 1;
        spoil_mean(rng, s, |mean| mean.analog = number);
    }),
];

/// A good mean at a place, whatever it was.
fn equip_mean(scene: &mut Scene, place: usize) -> Place {
    let e = &mut scene.equipment;
    let named = |n: u8| e.means.iter().any(|p| p.used() && p.calculation == n);
    let number = (0..CALCULATIONS as u8).find(|&n| !named(n)).unwrap_or(0);
    e.calculations[usize::from(number)] = 1;
    e.inputs[0x80] = 1;
    e.means[place] = Place {
        calculation: number,
        analog: 0x80,
        window: 1,
    };
    e.means[place]
}

/// The same with something wrong in it.
fn spoil_mean(rng: &mut Rng, scene: &mut Scene, spoil: impl Fn(&mut Place)) {
    let place = rng.below(MEANS);
    equip_mean(scene, place);
    spoil(&mut scene.equipment.means[place]);
}

fn equip_file(scene: &mut Scene, file: usize, values: u8) {
    scene.equipment.files[file] = 1;
    scene.equipment.values[file] = values;
}

/// A valid configuration: from nothing equipped to everything.
fn equipment(rng: &mut Rng) -> Equipment {
    let longest = header::BLOCK as u16;
    let mut made = Equipment {
        unit: rng.pick(&[0, 1, 0x7FE, 1234]),
        length: rng.pick(&[0, 1, 16, 100, 128, 255, 256, longest - 1, longest, longest]),
        ..Equipment::none()
    };
    if rng.flip() {
        made.unit = rng.below(0x7FF) as u16;
        made.length = rng.below(header::BLOCK + 1) as u16;
    }
    let some = share(rng);
    equip(
        rng,
        &mut made.inputs,
        some,
        |n| !matches!(n, 0x20..=0x2F | 0x60..=0x7F),
    );
    let some = share(rng);
    equip(rng, &mut made.outputs, some, |_| true);
    equip_calculations(rng, &mut made.calculations);
    equip_files(rng, &mut made);
    means::equip(rng, &mut made);
    made
}

/// How many in a hundred are equipped.
fn share(rng: &mut Rng) -> usize {
    rng.pick(&[0, 4, 20, 50, 90, 100, 100, 100])
}

/// Any character but 0 equips.
fn mark(rng: &mut Rng) -> u8 {
    rng.pick(&[1, 1, 2, 0x80, 0xFF])
}

fn equip(rng: &mut Rng, table: &mut [u8], some: usize, may: fn(usize) -> bool) {
    for n in (0..table.len()).filter(|&n| may(n)) {
        if rng.percent(some) {
            table[n] = mark(rng);
        }
    }
}

/// Often 127 or 128, as many as a reply carries and one more.
fn equip_calculations(rng: &mut Rng, table: &mut [u8; INPUTS]) {
    let some = share(rng);
    equip(rng, &mut table[..CALCULATIONS], some, |_| true);
    if some == 100 && rng.flip() {
        table[rng.below(CALCULATIONS)] = 0;
    }
}

/// Often just what is asked for, else more: a little, as much as any unit asks for, or all that is set aside.
fn room(rng: &mut Rng, asked: usize) -> usize {
    let any = rng.between(asked, RECORDS);
    rng.pick(&[asked, asked, asked, asked + 1, any, header::LENT, RECORDS])
}

/// None, a few or all; sizes at which a dump just fits, or just does not, are common. Others have any number of values.
fn equip_files(rng: &mut Rng, made: &mut Equipment) {
    rng.fill(&mut made.values);
    // files that keep the oldest, equipped or not
    equip(rng, &mut made.oldest, 40, |_| true);
    let many = rng.pick(&[0, 1, 2, 3, 3, 4, 4, 12, FILES]);
    for i in 0..many {
        let file = if many == FILES { i } else { rng.below(FILES) };
        made.files[file] = mark(rng);
        made.values[file] = rng.pick(&[1, 4, 5, 12, 12, 14, 16]);
        if rng.flip() {
            made.values[file] = rng.between(1, header::VALUES) as u8;
        }
    }
}
