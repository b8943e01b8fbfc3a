//! Colours by number: those of the viridis map, which runs from light to dark in even steps, so that readers who tell no red from green, and prints in
//! grey, keep them apart.

pub type Colour = [u8; 3];

/// The map at even steps, the darkest first. Its lightest yellow is left out, which is too faint on white.
const MAP: [Colour; 9] = [
    [0x44, 0x01, 0x54],
    [0x47, 0x2c, 0x7a],
    [0x3b, 0x51, 0x8b],
    [0x2c, 0x71, 0x8e],
    [0x21, 0x90, 0x8d],
    [0x27, 0xad, 0x81],
    [0x5c, 0xc8, 0x63],
    [0xaa, 0xdc, 0x32],
    [0xd8, 0xe2, 0x19],
];

/// The colour of a number among those that a picture shows, which fall: the largest is the darkest.
pub fn of(number: usize, falling: &[usize]) -> Colour {
    let place = falling.iter().position(|other| *other == number).unwrap_or(0);
    at(place as f64 / falling.len().saturating_sub(1).max(1) as f64)
}

/// The colour at a part of the map from 0 to 1.
fn at(part: f64) -> Colour {
    let place = part * (MAP.len() - 1) as f64;
    let below = (place as usize).min(MAP.len() - 2);
    let mix = |channel: usize| {
        let [from, to] = [MAP[below], MAP[below + 1]].map(|colour| f64::from(colour[channel]));
        (from + (to - from) * (place - below as f64)).round() as u8
    };
    [mix(0), mix(1), mix(2)]
}

pub fn hex([red, green, blue]: Colour) -> String {
    format!("#{red:02x}{green:02x}{blue:02x}")
}

/// The colour of text that can be read on a colour.
pub fn text_on([red, green, blue]: Colour) -> &'static str {
    let light = 0.299 * f64::from(red) + 0.587 * f64::from(green) + 0.114 * f64::from(blue);
    if light > 140.0 { "#000000" } else { "#ffffff" }
}
