//! Prints a page of earthquakes for one bridge, answered in one go; a scenario that is refused does not stop the
//! others.

use fusnoch::{Enclosure, ProjectionDistance, Refusal, RuptureDistance, Scenario, BOORE_ATKINSON, IDRISS};

/// The same throughout the page: V_S30 in 0.1 m/s, and the period in 0.001 s.
const VELOCITY: u16 = 5200;
const PERIOD: u16 = 1000;

const STRIKE_SLIP: u8 = 0;
const NORMAL: u8 = 1;
const REVERSE: u8 = 2;

const PAGE: [Scenario; 8] = [
    earthquake(IDRISS, 700, Some(RuptureDistance(1044)), Some(ProjectionDistance(1000)), STRIKE_SLIP),
    earthquake(BOORE_ATKINSON, 700, Some(RuptureDistance(1044)), Some(ProjectionDistance(1000)), STRIKE_SLIP),
    earthquake(IDRISS, 650, Some(RuptureDistance(2200)), Some(ProjectionDistance(1850)), REVERSE),
    earthquake(BOORE_ATKINSON, 650, Some(RuptureDistance(2200)), Some(ProjectionDistance(1850)), REVERSE),
    earthquake(IDRISS, 800, Some(RuptureDistance(18000)), None, STRIKE_SLIP),
    earthquake(BOORE_ATKINSON, 800, None, Some(ProjectionDistance(18000)), STRIKE_SLIP),
    earthquake(IDRISS, 600, Some(RuptureDistance(1200)), Some(ProjectionDistance(1500)), NORMAL),
    earthquake(BOORE_ATKINSON, 600, Some(RuptureDistance(1200)), None, NORMAL),
];

/// A scenario of the page: magnitude in 0.01.
const fn earthquake(
    model: u8,
    magnitude: u16,
    rupture_distance: Option<RuptureDistance>,
    projection_distance: Option<ProjectionDistance>,
    mechanism: u8,
) -> Scenario {
    Scenario { model, magnitude, rupture_distance, velocity: VELOCITY, mechanism, period: PERIOD, projection_distance }
}

fn model_name(model: u8) -> &'static str {
    match model {
        IDRISS => "Idriss 2014",
        _ => "Boore and Atkinson 2008",
    }
}

fn mechanism_name(mechanism: u8) -> &'static str {
    match mechanism {
        STRIKE_SLIP => "strike-slip",
        NORMAL => "normal",
        _ => "reverse",
    }
}

/// A number of hundredths as a decimal.
fn decimal(hundredths: u16) -> String {
    format!("{}.{:02}", hundredths / 100, hundredths % 100)
}

/// A distance in km, or - where it is absent.
fn distance(hundredths: Option<u16>) -> String {
    hundredths.map_or(String::from("-"), decimal)
}

/// The ends of an answer, or the refusal.
fn cells(answer: &Result<Enclosure, Refusal>) -> String {
    match answer {
        Ok(e) => format!("{:12} {:12} {:10} {:10}", e.median_low, e.median_high, e.sigma_low, e.sigma_high),
        Err(refusal) => format!("refusal {}, {}", refusal.0, refusal),
    }
}

fn print_heading() {
    println!(
        "A page of earthquakes for one bridge, 5 percent damped: V_S30 {}.{} m/s, period {}.{:03} s",
        VELOCITY / 10,
        VELOCITY % 10,
        PERIOD / 1000,
        PERIOD % 1000
    );
    println!("median, sigma: ends in units of 10^-9; they enclose the natural logarithm of the median in g, and sigma");
    println!();
    println!(
        "place | {:23} | {:>4} | rupture km | projection km | {:11} | {:>12} {:>12} {:>10} {:>10}",
        "model", "M", "mechanism", "median low", "median high", "sigma low", "sigma high"
    );
}

fn print_line(place: usize, s: &Scenario, answer: &Result<Enclosure, Refusal>) {
    println!(
        "{:5} | {:23} | {:>4} | {:>10} | {:>13} | {:11} | {}",
        place,
        model_name(s.model),
        decimal(s.magnitude),
        distance(s.rupture_distance.map(|distance| distance.0)),
        distance(s.projection_distance.map(|distance| distance.0)),
        mechanism_name(s.mechanism),
        cells(answer)
    );
}

fn main() -> Result<(), Refusal> {
    let answers = fusnoch::answer_sheet(&PAGE)?;
    print_heading();
    for (place, (scenario, answer)) in (1..).zip(PAGE.iter().zip(&answers)) {
        print_line(place, scenario, answer);
    }
    println!("\n{} scenarios, {} answered", answers.len(), answers.iter().filter(|answer| answer.is_ok()).count());
    Ok(())
}
