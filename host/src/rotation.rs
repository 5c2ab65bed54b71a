//! Document 01, Place in the orbit: the body direction and the rotation.

use crate::scaled::{scaled, scaled3};
use crate::sine::Sine;

/// Three numbers in units of 2^-30.
pub type Row = [i64; 3];

/// Rows P, Q and W for inclination i, node Ω and periapsis argument ω.
pub fn rotation(sine: &Sine, inclination: u32, node: u32, argument: u32) -> [Row; 3] {
    let (sin_i, cos_i) = (sine.sin(inclination), sine.cos(inclination));
    let (sin_O, cos_O) = (sine.sin(node), sine.cos(node));
    let (sin_o, cos_o) = (sine.sin(argument), sine.cos(argument));
    let P = [
        scaled(cos_o, cos_O) - scaled3(sin_o, sin_O, cos_i),
        scaled(cos_o, sin_O) + scaled3(sin_o, cos_O, cos_i),
        scaled(sin_o, sin_i),
    ];
    let Q = [
        -scaled(sin_o, cos_O) - scaled3(cos_o, sin_O, cos_i),
        -scaled(sin_o, sin_O) + scaled3(cos_o, cos_O, cos_i),
        scaled(cos_o, sin_i),
    ];
    let W = [scaled(sin_O, sin_i), -scaled(cos_O, sin_i), cos_i];
    [P, Q, W]
}

/// (cos v∘cos h, cos v∘sin h, sin v): the body direction E with h = α, v = δ,
/// and the station's u with h = τ, v = latitude.
pub fn direction(sine: &Sine, h: u32, v: u32) -> Row {
    let cos_v = sine.cos(v);
    [
        scaled(cos_v, sine.cos(h)),
        scaled(cos_v, sine.sin(h)),
        sine.sin(v),
    ]
}

/// The sum of a row's entries each ∘ the direction's: Ep from P, Eq from Q.
pub fn sum(row: &Row, E: &Row) -> i64 {
    scaled(row[0], E[0]) + scaled(row[1], E[1]) + scaled(row[2], E[2])
}
