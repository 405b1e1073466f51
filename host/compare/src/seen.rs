//! Things worth seeing in a run, each with how it is known: a comparison that never met one has not compared it.

use crate::board::header::*;
use crate::event::Event;
use crate::frames::VERY_LONG;
use crate::known::*;
use crate::means::*;
use crate::pair::Pair;
use independent::{Answer, Sampled};

type Known = fn(&Event, &Pair, &Answer) -> bool;

/// What must have been seen.
pub const SEEN: [(&str, Known); 106] = [
    ("reply of 511 data characters", |_, _, a| a.sent == REPLY),
    ("table scan of 255 words", |_, p, a| {
        a.sent == REPLY - 1 && p.reply()[2] == 0x0A
    }),
    ("plans made anew by an EXECUTE", |e, p, a| {
        scans(e, a, 0x20)
            && heard(e)[3] == 0x31
            && p.before[WRITE] == 1
            && p.before[WRITE_ORDINAL] == 3
    }),
    ("table scan by a plan of three parts", |e, p, a| {
        scans(e, a, 0x0A) && planned_parts(e, p).iter().all(|&many| many > 0)
    }),
    ("table scan too long by its plan", |e, p, a| {
        a.outcome == TOO_LONG as u8
            && plan_of(e).is_some_and(|k| p.unit.memory.chars[AT_PLANS + k] == TOO_LONG as u8)
    }),
    ("127 calculation values", |_, p, a| {
        a.sent == REPLY - 3 && p.reply()[2] == 0x03
    }),
    ("102 calculations asked for", |_, p, a| {
        a.sent == REPLY - 1 && p.reply()[2] == 0x03
    }),
    ("frame of 136 characters answered", |e, _, a| {
        a.sent > 0 && heard(e).len() == FRAME
    }),
    ("stretch of 0 characters", |e, _, a| told(e, a, 0)),
    ("stretch of 1 character", |e, _, a| told(e, a, 1)),
    ("stretch of 7 characters", |e, _, a| told(e, a, 7)),
    ("stretch of 8 characters", |e, _, a| told(e, a, 8)),
    ("stretch of 137 characters", |e, _, a| told(e, a, FRAME + 1)),
    ("stretch of 100,000 characters", |e, _, a| {
        told(e, a, VERY_LONG)
    }),
    ("stretch of 148 characters", |e, _, a| {
        told(e, a, STRETCH + 1)
    }),
    ("pair of 19 characters", |e, _, a| {
        paired(e, a, WRONG_COUNT) && heard(e).len() == STRETCH - FRAME + 8
    }),
    ("pair of 137 characters done", |e, _, a| {
        paired(e, a, DONE) && heard(e).len() == FRAME + 1
    }),
    ("pair of 147 characters done", |e, _, a| {
        paired(e, a, DONE) && heard(e).len() == STRETCH
    }),
    ("pair past its block's end", |e, _, a| {
        paired(e, a, NOT_VALID)
    }),
    ("pair of a master whose write waits", |e, p, a| {
        paired(e, a, DONE) && p.before[WRITE] == 1
    }),
    ("pair that breaks a select off", |e, _, a| {
        paired(e, a, BROKEN_OFF)
    }),
    ("pair while another's write waits", |e, p, a| {
        paired(e, a, WRITE_HELD) && p.unit.memory.kept(WRITE) == 1
    }),
    ("pair for another unit", |e, _, a| paired(e, a, OTHER_UNIT)),
    ("pair to all", |e, p, a| {
        paired(e, a, BROADCAST_REFUSED) && p.unit.memory.kept(STATUS_BROADCAST) == 1
    }),
    ("pair with a damaged WRITE", |e, _, a| {
        apart(e, a, (false, true))
    }),
    ("pair with a damaged EXECUTE", |e, _, a| {
        apart(e, a, (true, false))
    }),
    ("pair damaged over its seam", |e, _, a| {
        apart(e, a, (false, false))
    }),
    ("WRITE and EXECUTE of two addresses", |e, _, a| {
        apart(e, a, (true, true))
    }),
    ("frame of 8 characters of 0", |e, _, a| {
        heard(e) == [0; 8] && served(a)
    }),
    (
        "buffer one too short",
        |e, _, _| matches!(e, Event::Stretch { room, .. } if *room == REPLY - 1),
    ),
    ("more room lent than any unit asks for", |_, p, a| {
        p.lent.records > LENT && a.outcome == DONE as u8
    }),
    ("more room lent than asked for", |_, p, a| {
        p.lent.records > p.places.room && p.lent.records < LENT && a.outcome == DONE as u8
    }),
    ("room exactly as asked for", |_, p, a| {
        exact(p) && a.outcome == DONE as u8
    }),
    (
        "room exactly as asked for, filled to its last",
        |e, p, a| stored(e, a).is_some_and(|f| exact(p) && p.places.ends_with(f) && full(p, f)),
    ),
    ("record of a file of one value", |e, p, a| {
        stored(e, a).is_some_and(|f| p.equipment.values[f] == 1)
    }),
    (
        "record of a file behind one that is not equipped",
        |e, p, a| stored(e, a).is_some_and(|f| p.places.skips_to(f)),
    ),
    ("oldest record dropped for a new one", |e, p, a| {
        drops(e, p, a).is_some_and(|_| p.before[MEMORY] == 0)
    }),
    (
        "record dropped behind those of the latest reply",
        |e, p, a| drops(e, p, a).is_some_and(|f| spared(p, f) > 0),
    ),
    (
        "record dropped beside a reply of another file",
        |e, p, a| {
            drops(e, p, a)
                .is_some_and(|f| p.before[MEMORY_QUANTITY] > 0 && p.before[MEMORY_FILE] != f as u16)
        },
    ),
    ("record dropped past all that is told", |e, p, a| {
        drops(e, p, a).is_some_and(|f| usize::from(p.unit.memory.dropped(f as u8)) == DROPPED)
    }),
    ("none dropped of 32 in the latest reply", |e, p, a| {
        refuses(e, p, a).is_some_and(|f| p.equipment.oldest[f] == 0 && spared(p, f) == ROOM)
    }),
    ("none dropped of a file that keeps the oldest", |e, p, a| {
        refuses(e, p, a).is_some_and(|f| p.equipment.oldest[f] != 0 && spared(p, f) < ROOM)
    }),
    ("NOP with data", |_, p, a| {
        a.sent > 9 && p.reply()[2] & 0x40 != 0
    }),
    ("RST", |_, p, a| a.sent > 0 && p.reply()[2] & 0x80 != 0),
    ("output opened", |_, _, a| {
        a.action.is_some_and(|x| !x.close)
    }),
    ("output closed", |_, _, a| a.action.is_some_and(|x| x.close)),
    ("history reply with more held", |e, p, a| {
        history(e, a).is_some() && p.reply()[7] & 0x80 != 0
    }),
    ("history reply of an empty file", |e, p, a| {
        history(e, a).is_some() && p.reply()[7] == 0
    }),
    ("history reply sent again", |e, _, a| {
        history(e, a).is_some_and(|c| c & 0x40 == 0)
    }),
    ("sent again without the flag, more held since", |e, p, a| {
        history(e, a).is_some_and(|c| {
            c & 0x40 == 0 && p.reply()[7] < p.unit.memory.count(usize::from(c & 0x1F))
        })
    }),
    ("records released", |e, p, a| releases(e, p, a)),
    ("records of another file released", |e, p, a| {
        releases(e, p, a)
            && history(e, a).is_some_and(|c| u16::from(c & 0x1F) != p.before[MEMORY_FILE])
    }),
    ("latest reply replaced by another master's", |e, p, a| {
        acknowledges(e, a) && p.before[MEMORY] == 1 && p.before[MEMORY_MASTER] != master(e)
    }),
    ("select timed out", |_, p, _| {
        p.before[SELECT] == 1 && p.unit.memory.kept(SELECT) == 2
    }),
    ("select alive at 5,000", |e, p, _| {
        matches!(e, Event::Elapsed(1..)) && usize::from(p.unit.memory.kept(SELECT_AGE)) == HOLD_MS
    }),
    ("write timed out", |e, p, _| {
        matches!(e, Event::Elapsed(_)) && p.before[WRITE] == 1 && p.unit.memory.kept(WRITE) == 0
    }),
    ("write dropped by its master's frame", |e, p, a| {
        a.sent > 0
            && p.before[WRITE] == 1
            && p.before[WRITE_MASTER] == master(e)
            && p.unit.memory.kept(WRITE) == 0
    }),
    ("port fallen silent", |_, p, _| {
        p.before[MARK] != 1 && p.unit.memory.kept(MARK) == 1
    }),
    ("mark carried by a reply", |_, p, a| {
        a.sent > 0 && p.before[MARK] != 0 && p.unit.memory.kept(MARK) == 0
    }),
    ("year's end passed", |e, p, _| {
        matches!(e, Event::Elapsed(_)) && p.unit.memory.kept(DAY) < p.before[DAY]
    }),
    ("set with a lag over a second's end", |e, p, a| {
        set(e, a).is_some_and(|(t, _)| u16::from(t.second) != p.unit.memory.kept(SECOND))
    }),
    ("set with a lag over an hour's end", |e, p, a| {
        set(e, a).is_some_and(|(t, _)| u16::from(t.hour) != p.unit.memory.kept(HOUR))
    }),
    ("set with a lag over the year's end", |e, p, a| {
        set(e, a).is_some_and(|(t, _)| t.day == 366 && p.unit.memory.kept(DAY) == 1)
    }),
    ("set to all with a lag", |e, _, a| {
        set(e, a).is_some_and(|(_, lag)| lag > 0) && a.outcome == BROADCAST_DONE as u8
    }),
    ("set with the longest lag", |e, _, a| {
        set(e, a).is_some_and(|(_, lag)| lag == LAG_MS)
    }),
    ("good time refused by its lag", |e, _, a| {
        time(e).is_some_and(|(_, lag)| lag > LAG_MS) && a.outcome == NOT_VALID as u8
    }),
    ("good time to all refused by its lag", |e, _, a| {
        time(e).is_some_and(|(_, lag)| lag > LAG_MS) && a.outcome == BROADCAST_REFUSED as u8
    }),
    ("good time refused by a lag one too long", |e, _, a| {
        time(e).is_some_and(|(_, lag)| lag == LAG_MS + 1) && a.outcome == NOT_VALID as u8
    }),
    ("another frame with a lag past the limit", |e, _, a| {
        a.sent > 0 && time(e).is_none() && lag(e) > LAG_MS
    }),
    (
        "accumulator carried over",
        |e, p, a| matches!(e, Event::Pulses(n, count) if a.outcome == 0 && p.unit.memory.word(*n) < *count),
    ),
    ("first change of a contact", |e, p, a| {
        given(e, p, a).is_some_and(|(own, _, marked, once)| !own && !marked && !once)
    }),
    ("second change of a contact, marked", |e, p, a| {
        given(e, p, a).is_some_and(|(own, new, marked, once)| !own && !marked && once && new)
    }),
    ("change of a contact that is marked", |e, p, a| {
        given(e, p, a).is_some_and(|(own, _, marked, _)| !own && marked)
    }),
    ("contact reported twice the same", |e, p, a| {
        given(e, p, a).is_some_and(|(own, _, _, once)| own && once)
    }),
    (
        "contact of a group not equipped",
        |e, p, a| matches!(e, Event::Contact(n, 0..=1) if !p.config.inputs[usize::from(n / 8)] && not_valid(a)),
    ),
    (
        "contact in a state that is none",
        |e, p, a| matches!(e, Event::Contact(n, 2..) if p.config.inputs[usize::from(n / 8)] && not_valid(a)),
    ),
    (
        "two-bit word refused ready made",
        |e, p, a| matches!(e, Event::Word(n @ 0..=0x1F, _) if p.config.inputs[usize::from(*n)] && not_valid(a)),
    ),
    ("marks cleared by a scan of kinds", |e, p, a| {
        scans(e, a, 0x00) && cleared(p, |word, _| word > 0xFF)
    }),
    ("marks cleared by a scan of a table", |e, p, a| {
        scans(e, a, 0x0A) && cleared(p, |word, _| word > 0xFF)
    }),
    ("tally without a mark cleared by a reply", |e, p, a| {
        (scans(e, a, 0x00) || scans(e, a, 0x0A))
            && cleared(p, |word, bits| word < 0x100 && bits > 0)
    }),
    ("marked group twice in a reply", |e, p, a| {
        scans(e, a, 0x0A)
            && (0..GROUPS).any(|g| p.groups[g].0 > 0xFF && told_twice(p, p.groups[g].0))
    }),
    ("marks kept by a refused scan", |e, p, a| {
        matches!(heard(e).get(2), Some(0x00 | 0x0A)) && (6..=9).contains(&a.outcome) && waiting(p)
    }),
    ("marks kept by a scan of other kinds", |e, p, a| {
        scans(e, a, 0x00) && heard(e)[3] & 0x04 == 0 && waiting(p)
    }),
    ("first sample of a mean", |e, p, a| {
        sampled(e, p, a).is_some_and(|(window, before, _)| before == 0 && window > 1)
    }),
    ("sample that leaves one missing", |e, p, a| {
        sampled(e, p, a).is_some_and(|(_, _, s)| s == Sampled::Missing(1))
    }),
    ("sample that makes a mean ready", |e, p, a| {
        sampled(e, p, a).is_some_and(|(window, before, _)| window > 1 && before + 1 == window)
    }),
    ("sample for which the oldest goes", |e, p, a| {
        sampled(e, p, a).is_some_and(|(window, before, _)| window > 1 && before == window)
    }),
    ("mean of 1 sample", |e, p, a| {
        ready(e, p, a).is_some_and(|(window, _)| window == 1)
    }),
    ("mean of 256 samples", |e, p, a| {
        ready(e, p, a).is_some_and(|(window, _)| usize::from(window) == SAMPLES)
    }),
    ("mean of 0 over samples that are not", |e, p, a| {
        ready(e, p, a).is_some_and(|(window, mean)| mean == 0.0 && window > 1) && !idle(e, p)
    }),
    ("mean below 0 that is no whole number", |e, p, a| {
        ready(e, p, a).is_some_and(|(_, mean)| mean < 0.0 && mean.fract() != 0.0)
    }),
    ("mean of -32,768 all through", |e, p, a| {
        all_through(e, p, a, i16::MIN)
    }),
    ("mean of 32,767 all through", |e, p, a| {
        all_through(e, p, a, i16::MAX)
    }),
    ("sample of an analog that two means have", |e, p, a| {
        sampled(e, p, a).is_some() && shares(e, p)
    }),
    (
        "sample of an equipped calculation that is no mean",
        |e, p, a| matches!(e, Event::Sample(n) if p.config.calculations[usize::from(*n)] && not_valid(a)),
    ),
    (
        "sample of a calculation not equipped",
        |e, p, a| matches!(e, Event::Sample(n) if !p.config.calculations[usize::from(*n)] && not_valid(a)),
    ),
    (
        "value of a mean refused",
        |e, p, a| matches!(e, Event::Value(n, _) if place_of(p, *n).is_some() && not_valid(a)),
    ),
    ("mean not ready told as not equipped", |e, p, a| {
        values(e, a, 0x00, NOT_VALID) && told_waiting(p) == 1
    }),
    (
        "means not ready told as not equipped, and again",
        |e, p, a| values(e, a, 0x00, NOT_VALID) && told_waiting(p) > 2,
    ),
    ("ready mean among the values asked for", |e, p, a| {
        values(e, a, 0x00, DONE) && asked(e).iter().any(|&n| place_of(p, n).is_some())
    }),
    ("mean not ready skipped among all values", |e, p, a| {
        values(e, a, 0x80, DONE) && any_waits(p)
    }),
    ("128 equipped, and 127 ready", |e, p, a| {
        values(e, a, 0x80, DONE) && equipped(p) == CALCULATIONS && a.sent == REPLY - 3
    }),
    ("128 ready, means among them", |e, p, a| {
        values(e, a, 0x80, TOO_LONG) && any_ready(p) && !any_waits(p)
    }),
    ("ready mean left by a start by the line", |e, p, a| {
        a.outcome == DONE as u8 && heard(e).get(2..4) == Some(&[0x20, 0x00]) && any_ready(p)
    }),
    ("bit 7 cleared", |_, p, _| {
        p.before[STATUS_CONFIGURE] == 1 && p.unit.memory.kept(STATUS_CONFIGURE) == 0
    }),
    ("bit 3 cleared", |_, p, _| {
        p.before[STATUS_ERROR] == 1 && p.unit.memory.kept(STATUS_ERROR) == 0
    }),
];
