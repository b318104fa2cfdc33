//! Ground motion with proved ends, for programs in Rust: the safe way to the engine.

use std::fmt;

pub const IDRISS: u8 = 1;
pub const BOORE_ATKINSON: u8 = 2;

/// The most scenarios that a sheet has.
pub const SHEET_MOST: usize = 64;

/// The distance to the rupture, in 0.01 km.
#[derive(Clone, Copy, Debug, PartialEq, Eq, PartialOrd, Ord, Hash)]
pub struct RuptureDistance(pub u16);

/// The distance to the surface projection of the rupture, in 0.01 km. It is not taken for that to the rupture:
///
/// ```compile_fail,E0308
/// let distance: fusnoch::RuptureDistance = fusnoch::ProjectionDistance(1000);
/// ```
#[derive(Clone, Copy, Debug, PartialEq, Eq, PartialOrd, Ord, Hash)]
pub struct ProjectionDistance(pub u16);

/// The fields of a scenario, whole numbers in the units named here. Of the two distances a model reads its own, and
/// the other may be absent.
#[derive(Clone, Copy, Debug, PartialEq, Eq, Hash)]
pub struct Scenario {
    /// 1 Idriss, 2 Boore-Atkinson
    pub model: u8,
    /// 0.01
    pub magnitude: u16,
    /// to the rupture; Idriss reads it
    pub rupture_distance: Option<RuptureDistance>,
    /// V_S30, 0.1 m/s
    pub velocity: u16,
    /// 0 strike-slip, 1 normal, 2 reverse, 3 reverse oblique, 4 other oblique, 9 unspecified
    pub mechanism: u8,
    /// 0.001 s; 0 is peak acceleration
    pub period: u16,
    /// to its surface projection; Boore-Atkinson reads it
    pub projection_distance: Option<ProjectionDistance>,
}

/// Ends of the natural logarithm of the median in g and of sigma, in units of 10^-9: whole numbers or doubles.
#[repr(C)]
#[derive(Clone, Copy, Debug, PartialEq)]
pub struct Enclosure<End = i64> {
    pub median_low: End,
    pub median_high: End,
    pub sigma_low: End,
    pub sigma_high: End,
}

/// Two whole numbers of millionths of g between which a median lies; a low of 0 sets no bound.
#[repr(C)]
#[derive(Clone, Copy, Debug, PartialEq, Eq)]
pub struct Millionths {
    pub low: u32,
    pub high: u32,
}

/// The periods, in 0.001 s, of the two rows that a median rests on, equal where it is one; 0 is the row PGA. Shown, it
/// is `between 0.050 and 0.075` or `the row 0.075`.
#[repr(C)]
#[derive(Clone, Copy, Debug, PartialEq, Eq)]
pub struct Rows {
    pub lower: u16,
    pub upper: u16,
}

/// Which scenario of a sheet governs, and which are marked, by their positions counted from 1. The median of an
/// accepted one without a mark is less than that of some marked one.
#[derive(Clone, Debug, PartialEq, Eq)]
pub struct Governing {
    pub position: usize,
    pub marked: Vec<usize>,
}

/// The name of a period: its seconds, or PGA for peak acceleration.
fn name(period: u16) -> String {
    match period {
        0 => String::from("PGA"),
        _ => format!("{}.{:03}", period / 1000, period % 1000),
    }
}

impl fmt::Display for Rows {
    fn fmt(&self, f: &mut fmt::Formatter) -> fmt::Result {
        if self.lower == self.upper {
            write!(f, "the row {}", name(self.lower))
        } else {
            write!(f, "between {} and {}", name(self.lower), name(self.upper))
        }
    }
}

/// The number of a refusal, 1 to 14; shown, it is the words for it.
#[derive(Clone, Copy, Debug, PartialEq, Eq)]
pub struct Refusal(pub u8);

const WORDS: [&str; 15] = [
    "not a refusal",
    "model: neither 1 nor 2",
    "magnitude: beyond the model's limits",
    "distance: that which the model reads is beyond its limits",
    "velocity: beyond the model's limits",
    "mechanism: not a code of the model",
    "period: neither 0 nor from 10 to 10000",
    "cut short: no map byte, or fewer bytes than the map calls for",
    "spare bit: bit 7 stands",
    "wanting: bit 0 or 1 is clear, or the distance that the model reads is absent",
    "blank: no bit stands",
    "plain default: a field written with its absent number",
    "page full: lent bytes shorter than the record",
    "distances: the projection distance exceeds the rupture distance",
    "sheet: more than 64 scenarios",
];

impl fmt::Display for Refusal {
    fn fmt(&self, f: &mut fmt::Formatter) -> fmt::Result {
        f.write_str(WORDS.get(usize::from(self.0)).unwrap_or(&WORDS[0]))
    }
}

impl std::error::Error for Refusal {}

/// The functions of fusnoch.h.
mod raw {
    use super::{Enclosure, Millionths, ProjectionDistance, Rows, RuptureDistance, SHEET_MOST};

    /// A distance whose flag is 0 is absent, whatever its number.
    #[repr(C)]
    #[derive(Clone, Copy, Default)]
    pub struct Scenario {
        pub model: u8,
        pub rupture_present: u8,
        pub magnitude: u16,
        pub rupture_distance: u16,
        pub velocity: u16,
        pub mechanism: u8,
        pub projection_present: u8,
        pub period: u16,
        pub projection_distance: u16,
    }

    impl From<&super::Scenario> for Scenario {
        fn from(s: &super::Scenario) -> Self {
            Scenario {
                model: s.model,
                magnitude: s.magnitude,
                rupture_present: s.rupture_distance.is_some().into(),
                rupture_distance: s.rupture_distance.map_or(0, |distance| distance.0),
                velocity: s.velocity,
                mechanism: s.mechanism,
                period: s.period,
                projection_present: s.projection_distance.is_some().into(),
                projection_distance: s.projection_distance.map_or(0, |distance| distance.0),
            }
        }
    }

    impl From<Scenario> for super::Scenario {
        fn from(s: Scenario) -> Self {
            super::Scenario {
                model: s.model,
                magnitude: s.magnitude,
                rupture_distance: (s.rupture_present != 0).then_some(RuptureDistance(s.rupture_distance)),
                velocity: s.velocity,
                mechanism: s.mechanism,
                period: s.period,
                projection_distance: (s.projection_present != 0).then_some(ProjectionDistance(s.projection_distance)),
            }
        }
    }

    #[repr(C)]
    pub struct Answer<End> {
        pub number: u8,
        pub ends: Enclosure<End>,
    }

    /// Places from the count on are not read.
    #[repr(C)]
    pub struct Scenarios {
        pub places: [Scenario; SHEET_MOST],
    }

    /// The number is the sheet's own; the others are those of its places.
    #[repr(C)]
    pub struct Sheet {
        pub number: u8,
        pub count: usize,
        pub median_low: [i64; SHEET_MOST],
        pub median_high: [i64; SHEET_MOST],
        pub sigma_low: [i64; SHEET_MOST],
        pub sigma_high: [i64; SHEET_MOST],
        pub numbers: [u8; SHEET_MOST],
    }

    impl Sheet {
        pub fn answer_at(&self, place: usize) -> Answer<i64> {
            Answer {
                number: self.numbers[place],
                ends: Enclosure {
                    median_low: self.median_low[place],
                    median_high: self.median_high[place],
                    sigma_low: self.sigma_low[place],
                    sigma_high: self.sigma_high[place],
                },
            }
        }
    }

    /// A mark is 0 or 1, at the place of its scenario.
    #[repr(C)]
    pub struct Screening {
        pub number: u8,
        pub position: usize,
        pub marks: [u8; SHEET_MOST],
    }

    #[repr(C)]
    pub struct Bounds {
        pub number: u8,
        pub millionths: Millionths,
    }

    #[repr(C)]
    pub struct Periods {
        pub number: u8,
        pub rows: Rows,
    }

    #[repr(C)]
    pub struct Reading {
        pub number: u8,
        pub scenario: Scenario,
        pub length: usize,
    }

    #[repr(C)]
    pub struct Writing {
        pub number: u8,
        pub length: usize,
    }

    extern "C" {
        pub fn fusnoch_refusal(s: Scenario) -> u8;
        pub fn fusnoch_rows(model: u8, period: u16) -> Periods;
        pub fn fusnoch_answer_fields(s: Scenario) -> Answer<i64>;
        pub fn fusnoch_answer_record(bytes: *const u8, length: usize) -> Answer<i64>;
        pub fn fusnoch_answer_fields_in_doubles(s: Scenario) -> Answer<f64>;
        pub fn fusnoch_answer_record_in_doubles(bytes: *const u8, length: usize) -> Answer<f64>;
        pub fn fusnoch_millionths(s: Scenario) -> Bounds;
        pub fn fusnoch_read(bytes: *const u8, length: usize) -> Reading;
        pub fn fusnoch_write(s: Scenario, out: *mut u8, length: usize) -> Writing;
        pub fn fusnoch_answer_sheet(count: usize, scenarios: Scenarios) -> Sheet;
        pub fn fusnoch_governing(count: usize, scenarios: Scenarios) -> Screening;
    }
}

/// The result, or the refusal if the number is that of one.
fn unless_refused<T>(number: u8, result: T) -> Result<T, Refusal> {
    match number {
        0 => Ok(result),
        _ => Err(Refusal(number)),
    }
}

/// The ends of an answer, or its refusal.
fn ends<End>(answer: raw::Answer<End>) -> Result<Enclosure<End>, Refusal> {
    unless_refused(answer.number, answer.ends)
}

// Below, a pointer and a length always are those of one slice, of which the engine touches no other byte.

/// The refusal of a scenario, without answering it.
pub fn check(scenario: &Scenario) -> Result<(), Refusal> {
    unless_refused(unsafe { raw::fusnoch_refusal(scenario.into()) }, ())
}

/// The rows that the median of a model at a period rests on, and the sigma of Boore-Atkinson.
pub fn rows(model: u8, period: u16) -> Result<Rows, Refusal> {
    let periods = unsafe { raw::fusnoch_rows(model, period) };
    unless_refused(periods.number, periods.rows)
}

/// The same in words, `0.070 s: between 0.050 and 0.075` or `PGA: the row 0.010`; or the refusal,
/// `refusal 1, model: neither 1 nor 2`.
pub fn rows_words(model: u8, period: u16) -> String {
    let unit = if period == 0 { "" } else { " s" };
    match rows(model, period) {
        Ok(rows) => format!("{}{}: {}", name(period), unit, rows),
        Err(refusal) => format!("refusal {}, {}", refusal.0, refusal),
    }
}

pub fn answer(scenario: &Scenario) -> Result<Enclosure, Refusal> {
    ends(unsafe { raw::fusnoch_answer_fields(scenario.into()) })
}

pub fn answer_record(bytes: &[u8]) -> Result<Enclosure, Refusal> {
    ends(unsafe { raw::fusnoch_answer_record(bytes.as_ptr(), bytes.len()) })
}

/// The ends as doubles that equal the whole numbers.
pub fn answer_in_doubles(scenario: &Scenario) -> Result<Enclosure<f64>, Refusal> {
    ends(unsafe { raw::fusnoch_answer_fields_in_doubles(scenario.into()) })
}

pub fn answer_record_in_doubles(bytes: &[u8]) -> Result<Enclosure<f64>, Refusal> {
    ends(unsafe { raw::fusnoch_answer_record_in_doubles(bytes.as_ptr(), bytes.len()) })
}

/// The scenarios of a sheet. Those for which there is no place are left out: the engine refuses their count.
fn taken_over(scenarios: &[Scenario]) -> raw::Scenarios {
    let mut places = [raw::Scenario::default(); SHEET_MOST];
    for (place, scenario) in places.iter_mut().zip(scenarios) {
        *place = scenario.into();
    }
    raw::Scenarios { places }
}

/// Answers up to 64 scenarios in one go: one answer for each, in their order, as `answer` gives it; one that is refused
/// does not stop the others. More than 64 are refused with 14, whatever they are.
pub fn answer_sheet(scenarios: &[Scenario]) -> Result<Vec<Result<Enclosure, Refusal>>, Refusal> {
    let sheet = unsafe { raw::fusnoch_answer_sheet(scenarios.len(), taken_over(scenarios)) };
    unless_refused(sheet.number, ())?;
    Ok((0..sheet.count).map(|place| ends(sheet.answer_at(place))).collect())
}

/// Says which of up to 64 scenarios governs: the accepted one with the greatest high end of the median, of equal ones
/// the first; and marks each accepted one whose high end is at least the greatest low end among them. More than 64 are
/// refused with 14, and where none is accepted it is 15.
pub fn governing(scenarios: &[Scenario]) -> Result<Governing, Refusal> {
    let screening = unsafe { raw::fusnoch_governing(scenarios.len(), taken_over(scenarios)) };
    unless_refused(screening.number, ())?;
    let marked = (1..).zip(screening.marks).filter(|&(_, mark)| mark != 0).map(|(position, _)| position).collect();
    Ok(Governing { position: screening.position, marked })
}

/// The median in millionths of g: the exact one lies from low to high, and high less low is at most 2 plus
/// high/100000 rounded down.
pub fn millionths(scenario: &Scenario) -> Result<Millionths, Refusal> {
    let bounds = unsafe { raw::fusnoch_millionths(scenario.into()) };
    unless_refused(bounds.number, bounds.millionths)
}

/// The scenario of the record at the front of the bytes, and the bytes after it.
pub fn read(bytes: &[u8]) -> Result<(Scenario, &[u8]), Refusal> {
    let reading = unsafe { raw::fusnoch_read(bytes.as_ptr(), bytes.len()) };
    unless_refused(reading.number, ())?;
    Ok((reading.scenario.into(), &bytes[reading.length..]))
}

/// Puts the record at the front of the lent bytes and returns its length; refused, it leaves them as they are.
pub fn write(scenario: &Scenario, lent: &mut [u8]) -> Result<usize, Refusal> {
    let writing = unsafe { raw::fusnoch_write(scenario.into(), lent.as_mut_ptr(), lent.len()) };
    unless_refused(writing.number, writing.length)
}
