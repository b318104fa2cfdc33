//! Prints the spectrum of one earthquake by both models side by side: a vertical strike-slip fault whose rupture begins
//! 3 km down, at a site 10 km beside it, so that the rupture is 10.44 km away. Below the table stand the answers that
//! have no row of their own.

use fusnoch::{ProjectionDistance, RuptureDistance, Scenario, BOORE_ATKINSON, IDRISS};

/// The site's distance to the rupture, and to its surface projection.
const RUPTURE: RuptureDistance = RuptureDistance(1044);
const PROJECTION: ProjectionDistance = ProjectionDistance(1000);

/// In 0.001 s; 0 is peak acceleration.
const PERIODS: [u16; 24] = [
    0, 10, 20, 30, 40, 50, 70, 75, 100, 150, 200, 250, 300, 400, 500, 750, 1000, 1500, 2000, 3000, 4000, 5000, 7500,
    10000,
];

const MODELS: [(u8, &str); 2] = [(IDRISS, "Idriss 2014"), (BOORE_ATKINSON, "Boore and Atkinson 2008")];

/// A number of millionths as a decimal.
fn decimal(millionths: u32) -> String {
    format!("{}.{:06}", millionths / 1_000_000, millionths % 1_000_000)
}

/// The part of one model in a line: ends and the median in g, or the refusal.
fn cell(scenario: &Scenario) -> String {
    match (fusnoch::answer(scenario), fusnoch::millionths(scenario)) {
        (Ok(ends), Ok(g)) => format!(
            "{:12} {:12} {:>9} {:>9} {:10} {:10}",
            ends.median_low,
            ends.median_high,
            decimal(g.low),
            decimal(g.high),
            ends.sigma_low,
            ends.sigma_high
        ),
        (Err(refusal), _) | (_, Err(refusal)) => format!("refusal {}, {}", refusal.0, refusal),
    }
}

fn print_heading(scenario: &Scenario) {
    let hundredths = |number: u16| format!("{}.{:02}", number / 100, number % 100);
    println!(
        "Spectrum, 5 percent damped: M {}, strike-slip, V_S30 {}.{} m/s",
        hundredths(scenario.magnitude),
        scenario.velocity / 10,
        scenario.velocity % 10
    );
    println!(
        "Idriss 2014 at {} km from the rupture, Boore and Atkinson 2008 at {} km from its surface projection",
        hundredths(RUPTURE.0),
        hundredths(PROJECTION.0)
    );
    println!("median, sigma: ends in units of 10^-9; they enclose the natural logarithm of the median in g, and sigma");
    println!("g low, g high: the median in g lies between them; whole millionths of g, and a low of 0 sets no bound\n");
    println!("{:8} | {:67} | Boore and Atkinson 2008", "", "Idriss 2014");
    let columns = format!(
        "{:>12} {:>12} {:>9} {:>9} {:>10} {:>10}",
        "median low", "median high", "g low", "g high", "sigma low", "sigma high"
    );
    println!("{:>8} | {} | {}", "period s", columns, columns);
}

/// The two rows that each answer without a row of its own rests on.
fn print_between() {
    println!("\nBetween rows: answered from the two rows named, by the logarithm of the period");
    for period in PERIODS {
        for (model, title) in MODELS {
            if fusnoch::rows(model, period).map_or(false, |rows| rows.lower != rows.upper) {
                println!("{}, {}", title, fusnoch::rows_words(model, period));
            }
        }
    }
}

fn main() {
    // The earthquake at the site, with both distances: each model reads its own.
    let scenario = Scenario {
        model: IDRISS,
        magnitude: 700,
        rupture_distance: Some(RUPTURE),
        velocity: 7600,
        mechanism: 0,
        period: 0,
        projection_distance: Some(PROJECTION),
    };
    print_heading(&scenario);
    for period in PERIODS {
        let name = match period {
            0 => String::from("PGA"),
            _ => format!("{}.{:03}", period / 1000, period % 1000),
        };
        let cells = MODELS.map(|(model, _)| cell(&Scenario { model, period, ..scenario }));
        println!("{:>8} | {:67} | {}", name, cells[0], cells[1]);
    }
    print_between();
}
