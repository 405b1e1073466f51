//! Where the records of each file and the samples of each mean lie in what is lent for them, worked out from the configuration and not by the
//! library.

use crate::board::header::{self, FILES, MEANS, ROOM};
use crate::board::Equipment;
use crate::means::Place;
use independent::history::record_size;
use independent::means::MOST_SAMPLES;
use std::ops::Range;

/// Each equipped file has room for `ROOM` records of its own length, behind those of the files below it; behind all records each mean has room
/// for its samples, in the order of the places.
pub struct Places {
    /// Each file's start and the length of its records; none where a record has no place.
    files: [Option<(usize, usize)>; FILES],
    /// The places for means.
    pub means: [Place; MEANS],
    /// Whether all of them have a number of samples that a mean may be over.
    sampled: bool,
    /// How many characters of records the configuration asks for.
    pub records: usize,
    /// How many of records and samples.
    pub room: usize,
}

impl Places {
    /// Of a file with a number of values that no file has nothing is known, nor of any beside it: such a unit is out of range.
    pub fn of(e: &Equipment) -> Places {
        let equipped = |f: &usize| e.files[*f] != 0;
        let known = |f: usize| (1..=header::VALUES).contains(&e.values[f].into());
        let sound = (0..FILES).filter(equipped).all(known);
        let (mut files, mut room) = ([None; FILES], 0);
        for file in (0..FILES).filter(equipped) {
            let size = record_size(e.values[file]);
            files[file] = sound.then_some((room, size));
            room += ROOM * size;
        }
        let samples: usize = e.means.iter().map(|p| 2 * usize::from(p.window)).sum();
        let may = |p: &Place| p.window <= MOST_SAMPLES;
        Places {
            files,
            means: e.means,
            sampled: sound && e.means.iter().all(may),
            records: room,
            room: room + samples,
        }
    }

    /// Where a record's characters start. A file that is not equipped has no place for one; a unit that claims to hold it is out of range.
    pub fn of_record(&self, file: usize, record: usize) -> Option<usize> {
        let (start, size) = self.files[file]?;
        (record < ROOM).then_some(start + record * size)
    }

    /// The characters of a place's samples; none where one of the places is over more samples than a mean may be.
    pub fn window(&self, place: usize) -> Option<Range<usize>> {
        let wide = |p: &Place| 2 * usize::from(p.window);
        let start = self.records + self.means[..place].iter().map(wide).sum::<usize>();
        self.sampled
            .then_some(start..start + wide(&self.means[place]))
    }

    /// Where a sample's characters start; one more than the mean is over has no place.
    pub fn of_sample(&self, place: usize, sample: usize) -> Option<usize> {
        let mut window = self.window(place)?;
        window.nth(2 * sample)
    }

    /// Whether a file is the last of the records.
    pub fn ends_with(&self, file: usize) -> bool {
        self.of_record(file, 0).is_some() && self.files[file + 1..].iter().all(Option::is_none)
    }

    /// Whether a file lies just behind another, with none between them equipped but some that could be.
    pub fn skips_to(&self, file: usize) -> bool {
        let below = self.files[..file].iter().rposition(Option::is_some);
        self.of_record(file, 0).is_some() && below.is_some_and(|f| f + 1 < file)
    }
}
