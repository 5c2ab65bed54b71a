//! Document 01, Hidden and visible: the answer at one instant; and document 02,
//! wish 1: why it changes, and wish 2: how fast the station turns.

use crate::place::Place;
use crate::record::Job;
use crate::rotation::{direction, rotation, sum, Row};
use crate::scaled::{part_of_turn, scaled};
use crate::sine::Sine;
use crate::whole::Whole;

/// Ten turns of the station, ms. Document 02, wish 2: the stars see one turn in
/// 86,164.0905 s, which is no whole number of ms.
pub const TEN_TURNS: u32 = 861_640_905;

/// Document 02, wish 2: the station's term,
/// floor(((10·t) mod 861,640,905)·2^32 / 861,640,905).
///
/// 10·t fits in 64 bits: in a job t is at most 2,678,400,000.
#[inline]
pub fn station_term(t: u64) -> u32 {
    part_of_turn(10 * t, TEN_TURNS)
}

fn square(x: i64) -> i128 {
    i128::from(x) * i128::from(x)
}

/// What is fixed during a job for the question hidden.
#[derive(Clone, Copy)]
pub struct Shadow {
    place: Place,
    Ep: i64,
    Eq: i64,
    /// R²
    R2: i128,
}

impl Shadow {
    pub fn of(whole: &Whole) -> Shadow {
        let sine = Sine::table();
        let E = direction(sine, whole.ascension, whole.declination);
        let [P, Q, _] = rotation(sine, whole.inclination, whole.node, whole.argument);
        Shadow {
            place: Place::of(whole),
            Ep: sum(&P, &E),
            Eq: sum(&Q, &E),
            R2: square(whole.R),
        }
    }

    /// Hidden when d < 0 and X² + Y² − d² < R², with d = X∘Ep + Y∘Eq.
    #[inline]
    pub fn hidden(&self, t: u64) -> bool {
        let (X, Y) = self.place.at(t);
        let d = scaled(X, self.Ep) + scaled(Y, self.Eq);
        d < 0 && square(X) + square(Y) - square(d) < self.R2
    }
}

/// What is fixed during a job for the station.
#[derive(Clone, Copy)]
pub struct Station {
    sine: &'static Sine,
    E: Row,
    /// longitude + Greenwich, modulo 2^32
    turn: u32,
    /// cos lat
    cos_lat: i64,
    /// uz∘Ez
    uzEz: i64,
    /// sine of field 13
    least: i64,
}

impl Station {
    pub fn of(whole: &Whole) -> Station {
        let sine = Sine::table();
        let E = direction(sine, whole.ascension, whole.declination);
        Station {
            sine,
            E,
            turn: whole.longitude.wrapping_add(whole.greenwich),
            cos_lat: sine.cos(whole.latitude),
            uzEz: scaled(sine.sin(whole.latitude), E[2]),
            least: sine.sin(whole.elevation),
        }
    }

    /// τ, the station's turn, modulo 2^32.
    #[inline]
    pub fn tau(&self, t: u64) -> u32 {
        self.turn.wrapping_add(station_term(t))
    }

    /// Up: −(ux∘Ex + uy∘Ey + uz∘Ez) ≥ sine of field 13. The planet is seen
    /// along −E, hence the minus.
    #[inline]
    pub fn up(&self, t: u64) -> bool {
        let tau = self.tau(t);
        let ux = scaled(self.cos_lat, self.sine.cos(tau));
        let uy = scaled(self.cos_lat, self.sine.sin(tau));
        -(scaled(ux, self.E[0]) + scaled(uy, self.E[1]) + self.uzEz) >= self.least
    }
}

/// What is fixed during a job for its question.
#[derive(Clone, Copy)]
pub struct Sight {
    pub shadow: Shadow,
    pub station: Station,
    question: u32,
}

impl Sight {
    /// For an accepted job.
    pub fn of(job: &Job) -> Sight {
        let whole = Whole::of(&job.fields);
        Sight {
            shadow: Shadow::of(&whole),
            station: Station::of(&whole),
            question: job.question,
        }
    }

    /// Visible: up and not hidden.
    #[inline]
    pub fn visible(&self, t: u64) -> bool {
        self.station.up(t) && !self.shadow.hidden(t)
    }

    /// The question's yes or no at instant t: 1 hidden, 2 visible.
    #[inline]
    pub fn answer(&self, t: u64) -> bool {
        if self.question == 1 {
            self.shadow.hidden(t)
        } else {
            self.visible(t)
        }
    }

    /// Document 02, wish 1: what differs between `outside`, which answers no,
    /// and an instant next to it which answers yes: 1 hidden, plus 2 up.
    ///
    /// Question 1 tells of hidden alone, which is its answer and so differs. In
    /// question 2 the yes is up and not hidden: only `outside` is looked at, and
    /// where that is up, its no can only mean hidden.
    pub fn why(&self, outside: u64) -> u32 {
        if self.question == 1 {
            return 1;
        }
        let up = self.station.up(outside);
        let hidden = up || self.shadow.hidden(outside);
        u32::from(hidden) + 2 * u32::from(!up)
    }
}
