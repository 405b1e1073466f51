//! A failing run in words, to be read and run again.

use crate::board::header::{FILES, INPUTS, KEPT_NAMES};
use crate::board::Equipment;
use crate::event::hex;
use crate::faults::Fault;
use crate::image::kept_of;
use crate::reduce::fails;
use crate::runs::Run;
use crate::scene::Scene;
use independent::State;

/// Prints where a run starts, its events, and where the two units differ.
pub fn print(failure: &Run, fault: Option<&'static Fault>) {
    print_equipment(&failure.scene.equipment);
    print_means(&failure.scene.equipment);
    print_start(&failure.scene);
    for (i, event) in failure.events.iter().enumerate() {
        println!("  {}. {event}", i + 1);
    }
    if let Some((_, found)) = fails(&failure.scene, &failure.events, fault) {
        println!("  differs: {found}");
    }
}

fn print_equipment(e: &Equipment) {
    let files: Vec<String> = (0..FILES)
        .filter(|&f| e.files[f] != 0)
        .map(|f| {
            (
                f,
                e.values[f],
                ["newest", "oldest"][usize::from(e.oldest[f] != 0)],
            )
        })
        .map(|(f, values, keeps)| format!("{f} of {values} keeps the {keeps}"))
        .collect();
    println!("  unit {} with a parameter block of {}", e.unit, e.length);
    println!(
        "  inputs {}; outputs {}",
        numbers(&e.inputs),
        numbers(&e.outputs)
    );
    println!(
        "  calculations {}; files of values {}",
        numbers(&e.calculations),
        listed(&files)
    );
}

/// The means with their analogs and how many samples each is over.
fn print_means(e: &Equipment) {
    let means: Vec<String> = (e.means.iter().filter(|p| p.used()))
        .map(|p| format!("{:02X} of {} of {:02X}", p.calculation, p.window, p.analog))
        .collect();
    println!("  means {}", listed(&means));
}

fn listed(items: &[String]) -> String {
    if items.is_empty() {
        "none".to_string()
    } else {
        items.join(", ")
    }
}

/// Equipped numbers as runs from one to another.
fn numbers(table: &[u8; INPUTS]) -> String {
    let equipped = |n: usize| n < INPUTS && table[n] != 0;
    let firsts = (0..INPUTS).filter(|&n| equipped(n) && (n == 0 || !equipped(n - 1)));
    let runs = firsts.map(|first| {
        let last = (first..INPUTS)
            .take_while(|&n| equipped(n))
            .last()
            .unwrap_or(first);
        format!("{first:02X}-{last:02X}")
    });
    listed(&runs.collect::<Vec<_>>())
}

fn print_start(scene: &Scene) {
    println!(
        "  {} of the block and {} of records lent; memory filled with {:02X}",
        scene.lent.block, scene.lent.records, scene.fill
    );
    if scene.fresh {
        return println!("  from a fresh unit:");
    }
    let (kept, fresh) = (kept_of(&scene.state), kept_of(&State::fresh()));
    let kept = (0..kept.len())
        .filter(|&i| kept[i] != fresh[i])
        .map(|i| format!("{} {}", KEPT_NAMES[i], kept[i]));
    println!(
        "  from a unit that is fresh but for: {}",
        listed(&kept.collect::<Vec<_>>())
    );
    print_areas(&scene.state, &scene.params);
}

/// The areas and files that are not all 0 or empty.
fn print_areas(s: &State, block: &[u8]) {
    let parts = [
        ("words", s.words.map(u16::to_le_bytes).concat()),
        ("values", s.values.map(u32::to_le_bytes).concat()),
        ("changed", s.changed.to_vec()),
        ("dropped", s.dropped.map(u16::to_le_bytes).concat()),
        ("block 00", s.fixed.block_00.to_vec()),
        ("block 03", s.fixed.block_03.to_vec()),
        ("block 0B", s.fixed.block_0b.to_vec()),
        ("parameter block", block.to_vec()),
    ];
    for (name, part) in parts
        .iter()
        .filter(|(_, part)| part.iter().any(|&b| b != 0))
    {
        println!("  {name}: {}", hex(part));
    }
    let samples = s.samples.iter().enumerate();
    for (number, samples) in samples.filter(|(_, samples)| !samples.is_empty()) {
        println!("  samples of {number:02X}: {samples:?}");
    }
    for (file, held) in (0..FILES)
        .zip(&s.files)
        .filter(|(_, held)| !held.is_empty())
    {
        let records: Vec<String> = held.iter().map(|r| hex(r)).collect();
        println!("  file {file}: {}", records.join(" "));
    }
}
