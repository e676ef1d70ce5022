//! A new round of 120 streets over 30 days, printed as `target/bin/forecast < examples/new_round.txt` prints it.
use street_drill::{SimulatorConfig, simulate};

fn main() -> Result<(), street_drill::Error> {
    let config =
        SimulatorConfig { deck_size: 120, learn_span: 30, learn_limit: 8, review_limit: 60, ..Default::default() };
    let forecast = simulate(&config, &PARAMETERS, 0.9, 7, &[])?;
    println!("(forecast {} (turns {}) (cards {}))", forecast.days.len(), forecast.turns, forecast.cards.len());
    for (i, day) in forecast.days.iter().enumerate() {
        print!("(day {i} (learn {}) (review {}) (correct {}) ", day.learned, day.reviewed, day.correct);
        let [cost, memorized] = [day.cost, day.memorized].map(f32::to_bits);
        println!("(introduced {}) (cost {cost:08X}) (held {memorized:08X}))", day.introduced);
    }
    Ok(())
}

/// A usual list.
#[rustfmt::skip]
const PARAMETERS: [f32; 34] = [
    0.1104, 2.2395, 3.9221, 11.7841, 6.1686, 0.6457, 3.0194, 3.3722, 0.1666, 0.796, 1.4, 0.2629,
    1.6483, 0.6014, 1.8729, 3.3722, 0.1666, 0.796, 1.4, 0.2629, 1.6483, 0.6014, 1.8729,
    0.0392, 0.242, 0.6675, 0.9137, 0.4717, 0.4885, 0.8136, 0.698, 0.4621, 0.6547, 0.308,
];
