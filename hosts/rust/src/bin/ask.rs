//! Answers lines of standard input through the safe wrapper, one line each, for the tests: see hosts/c/ask.c. For
//! `null` it takes an empty slice of nothing, and the empty part at the end of some bytes.

use std::fmt::Display;
use std::io::{self, BufRead, Write};
use std::process::ExitCode;

use fusnoch::{Enclosure, Millionths, ProjectionDistance, Refusal, Rows, RuptureDistance, Scenario};

fn take_bytes(text: &str) -> Option<Box<[u8]>> {
    if text == "-" {
        return Some(Box::default());
    }
    if text.is_empty() || text.len() % 2 != 0 || !text.bytes().all(|digit| digit.is_ascii_hexdigit()) {
        return None;
    }
    (0..text.len()).step_by(2).map(|place| u8::from_str_radix(&text[place..place + 2], 16).ok()).collect()
}

/// A distance, or - where it is absent.
fn take_distance(word: &str) -> Option<Option<u16>> {
    match word {
        "-" => Some(None),
        _ => Some(Some(word.parse().ok()?)),
    }
}

/// How many words a scenario has.
const SCENARIO_WORDS: usize = 7;

/// A number that does not fit its field is no scenario.
fn take_scenario(words: &[&str]) -> Option<Scenario> {
    match words {
        [model, magnitude, rupture, velocity, mechanism, period, projection] => Some(Scenario {
            model: model.parse().ok()?,
            magnitude: magnitude.parse().ok()?,
            rupture_distance: take_distance(rupture)?.map(RuptureDistance),
            velocity: velocity.parse().ok()?,
            mechanism: mechanism.parse().ok()?,
            period: period.parse().ok()?,
            projection_distance: take_distance(projection)?.map(ProjectionDistance),
        }),
        _ => None,
    }
}

fn take_scenarios(words: &[&str]) -> Option<Box<[Scenario]>> {
    words.chunks(SCENARIO_WORDS).map(take_scenario).collect()
}

fn show_bytes(bytes: &[u8]) -> String {
    match bytes {
        [] => String::from("-"),
        _ => bytes.iter().map(|byte| format!("{:02x}", byte)).collect(),
    }
}

fn show_distance(distance: Option<u16>) -> String {
    distance.map_or(String::from("-"), |distance| distance.to_string())
}

/// A double that is whole is shown without a point.
fn show_answer<End: Display>(answer: Result<Enclosure<End>, Refusal>) -> String {
    match answer {
        Ok(e) => format!("E {} {} {} {}", e.median_low, e.median_high, e.sigma_low, e.sigma_high),
        Err(refusal) => format!("R {}", refusal.0),
    }
}

fn show_sheet(scenarios: &[Scenario]) -> String {
    match fusnoch::answer_sheet(scenarios) {
        Ok(answers) => {
            let places: String = answers.iter().map(|answer| format!(" | {}", show_answer(*answer))).collect();
            format!("S {}{}", answers.len(), places)
        }
        Err(refusal) => format!("R {}", refusal.0),
    }
}

fn show_governing(scenarios: &[Scenario]) -> String {
    match fusnoch::governing(scenarios) {
        Ok(governing) => {
            let marked: String = governing.marked.iter().map(|position| format!(" {}", position)).collect();
            format!("G {}{}", governing.position, marked)
        }
        Err(refusal) => format!("R {}", refusal.0),
    }
}

fn show_millionths(millionths: Result<Millionths, Refusal>) -> String {
    match millionths {
        Ok(millionths) => format!("E {} {}", millionths.low, millionths.high),
        Err(refusal) => format!("R {}", refusal.0),
    }
}

fn show_rows(rows: Result<Rows, Refusal>) -> String {
    match rows {
        Ok(rows) => format!("T {} {}", rows.lower, rows.upper),
        Err(refusal) => format!("R {}", refusal.0),
    }
}

fn show_reading(bytes: &[u8]) -> String {
    match fusnoch::read(bytes) {
        Ok((s, rest)) => format!(
            "E {} {} {} {} {} {} {} {} {}",
            s.model,
            s.magnitude,
            show_distance(s.rupture_distance.map(|distance| distance.0)),
            s.velocity,
            s.mechanism,
            s.period,
            show_distance(s.projection_distance.map(|distance| distance.0)),
            bytes.len() - rest.len(),
            show_bytes(rest)
        ),
        Err(refusal) => format!("R {} -", refusal.0),
    }
}

fn show_writing(scenario: &Scenario, mut lent: Box<[u8]>) -> String {
    match fusnoch::write(scenario, &mut lent) {
        Ok(length) => format!("L {} {}", length, show_bytes(&lent)),
        Err(refusal) => format!("R {} {}", refusal.0, show_bytes(&lent)),
    }
}

fn number<T>(result: Result<T, Refusal>) -> u8 {
    result.err().map_or(0, |refusal| refusal.0)
}

/// The numbers of reading, answering from a record in both ways, and writing, with no bytes.
fn show_null(none: &mut [u8]) -> String {
    let accepted = Scenario {
        model: fusnoch::IDRISS,
        magnitude: 700,
        rupture_distance: Some(RuptureDistance(1000)),
        velocity: 7600,
        mechanism: 2,
        period: 75,
        projection_distance: None,
    };
    let read = number(fusnoch::read(none));
    let answered = number(fusnoch::answer_record(none));
    let in_doubles = number(fusnoch::answer_record_in_doubles(none));
    let written = number(fusnoch::write(&accepted, none));
    format!("{} {} {} {}", read, answered, in_doubles, written)
}

/// The answer to a line, or none where it is no question.
fn answer(line: &str) -> Option<String> {
    let words: Vec<&str> = line.split(' ').collect();
    Some(match (words[0], &words[1..]) {
        ("null", []) => format!("{} {}", show_null(&mut []), show_null(&mut [0x37; 9][9..])),
        ("words", [number]) => Refusal(number.parse().ok()?).to_string(),
        ("rows", [model, period]) => show_rows(fusnoch::rows(model.parse().ok()?, period.parse().ok()?)),
        ("rows_words", [model, period]) => fusnoch::rows_words(model.parse().ok()?, period.parse().ok()?),
        ("read", [bytes]) => show_reading(&take_bytes(bytes)?),
        ("answer_record", [bytes]) => show_answer(fusnoch::answer_record(&take_bytes(bytes)?)),
        ("doubles_record", [bytes]) => show_answer(fusnoch::answer_record_in_doubles(&take_bytes(bytes)?)),
        ("refusal", fields) => number(fusnoch::check(&take_scenario(fields)?)).to_string(),
        ("answer", fields) => show_answer(fusnoch::answer(&take_scenario(fields)?)),
        ("doubles", fields) => show_answer(fusnoch::answer_in_doubles(&take_scenario(fields)?)),
        ("millionths", fields) => show_millionths(fusnoch::millionths(&take_scenario(fields)?)),
        ("sheet", fields) => show_sheet(&take_scenarios(fields)?),
        ("governing", fields) => show_governing(&take_scenarios(fields)?),
        ("write", [fields @ .., bytes]) => show_writing(&take_scenario(fields)?, take_bytes(bytes)?),
        _ => return None,
    })
}

fn main() -> ExitCode {
    let mut out = io::BufWriter::new(io::stdout());
    for line in io::stdin().lock().lines() {
        let line = line.expect("standard input is text");
        match answer(&line) {
            Some(answer) => writeln!(out, "{}", answer).expect("standard output takes a line"),
            None => {
                eprintln!("ask: not a question: {:.200}", line);
                return ExitCode::FAILURE;
            }
        }
    }
    ExitCode::SUCCESS
}
