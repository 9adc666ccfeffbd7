//! The four calculations for cable A of document 01, three of them for three such cables in
//! one trench, and a refusal of each kind of place.
//!
//!     cargo run --offline --manifest-path host/Cargo.toml --example rating

use kechmowad::{
    current, current_in_sheet, factor, factor_in_sheet, long_sheet, rise, share, share_in_sheet,
    sheet, Bounds, Cable, Refusal,
};

const CABLE: Cable = Cable {
    diameter: 500,          // 50 mm
    depth: 1_000,           // 1 m
    diffusivity: 500,       // 0.5e-6 m²/s
    surface_ratio: 600_000, // 0.6 of the conductor's steady rise
    fast_weight: 500_000,   // half of the attainment is fast
    fast_rate: 1_000,
    slow_rate: 100,
    rated: 400,
};

/// 100 A for eighteen hours, then 400 A for six.
fn day() -> [u16; 24] {
    std::array::from_fn(|hour| if hour < 18 { 100 } else { 400 })
}

fn rate_alone() -> Result<(), Refusal> {
    let Bounds { low, high } = share(&CABLE, 60)?;
    println!("share after 60 minutes: {low} to {high} millionths");

    // 300 A for ever, and steps to the same 300 A at 60 and 30 minutes before now.
    let steady = sheet(&CABLE, 300, 1, &[[60, 300, 2], [30, 300, 0]]);
    let Bounds { low, high } = rise(&steady)?;
    println!("rise of the sheet: {low} to {high} millionths");

    let thousandths = factor(&CABLE, &day())?;
    println!("factor of the day: {thousandths} thousandths");

    let amperes = current(&CABLE, 75, 100, 120)?;
    println!("emergency current: {amperes} A");
    Ok(())
}

fn rate_in_trench() -> Result<(), Refusal> {
    // Neighbours 200 mm to either side at the cable's depth. Field 4 is then the ratio for all
    // three: with that of a single cable the answers would be wrong, and nothing tells.
    let neighbours = [[200, 1_000, 2], [-200i16 as u16, 1_000, 0]];
    let three_cables = long_sheet(&CABLE, 300, 0, 1, &neighbours);
    let Bounds { low, high } = share_in_sheet(&three_cables, 60)?;
    println!("share of three cables: {low} to {high} millionths");

    let thousandths = factor_in_sheet(&three_cables, &day())?;
    println!("factor of three cables: {thousandths} thousandths");

    let amperes = current_in_sheet(&three_cables, 75, 100, 120)?;
    println!("emergency current of three cables: {amperes} A");
    Ok(())
}

fn show_refusals() {
    let thin = Cable {
        diameter: 99,
        ..CABLE
    };
    print_refusal("cable of 9.9 mm", share(&thin, 60));

    // Record 1 leads to itself, so that the minutes do not fall.
    let looping = sheet(&CABLE, 300, 1, &[[30, 300, 1]]);
    print_refusal("looping sheet", rise(&looping));

    // 40 mm are less than the cable's diameter of 50.
    let too_near = long_sheet(&CABLE, 300, 0, 1, &[[40, 1_000, 0]]);
    print_refusal("neighbour 40 mm aside", share_in_sheet(&too_near, 60));

    let mut hours = day();
    hours[5] = 4_001;
    print_refusal("day with 4001 A", factor(&CABLE, &hours));

    print_refusal("preload of 201 percent", current(&CABLE, 201, 100, 60));
    print_refusal("preload above the limit", current(&CABLE, 51, 25, 60));
}

fn print_refusal<T>(name: &str, answer: Result<T, Refusal>) {
    match answer {
        Ok(_) => println!("{name}: no refusal"),
        Err(refusal) => {
            let (number, place) = (refusal.number(), refusal.place);
            println!("{name}: refused {number} at {place}");
        }
    }
}

fn main() -> Result<(), Refusal> {
    rate_alone()?;
    rate_in_trench()?;
    show_refusals();
    Ok(())
}
