//! Where the tail of a train surely is, from balise to balise.

use plain::line::Line;

/// The points at which one balise is the latest.
struct Stretch {
    start: u32,
    balise: u32,
    /// The level at the last of them.
    most: u32,
}

/// The level at a point is 49 times the place of the head plus that of the latest balise, or of point 0. It never falls. The
/// whole train is surely past a place where the level is at least 50 times the sum of this place, the length and 2 m.
#[derive(Default)]
pub struct Balises {
    stretches: Vec<Stretch>,
    step: u32,
}

impl Balises {
    /// Takes those of a line. Of several in one cell the last counts.
    pub fn take(&mut self, line: &Line) {
        self.step = line.step as u32;
        self.stretches.clear();
        let mut last = Stretch { start: 0, balise: 0, most: u32::MAX };
        for j in 0..line.balise_points.len() {
            let balise = line.balise(j) as u32;
            let start = balise.div_ceil(self.step);
            if last.start < start {
                self.stretches.push(Stretch { most: 49 * self.step * (start - 1) + last.balise, ..last });
            }
            last = Stretch { start, balise, ..last };
        }
        self.stretches.push(last);
    }
}

/// The tail of a train as it moves on.
pub struct Tail<'a> {
    balises: &'a Balises,
    length: u32,
    stretch: usize,
}

impl<'a> Tail<'a> {
    pub fn new(balises: &'a Balises, length: usize) -> Self {
        Tail { balises, length: length as u32, stretch: 0 }
    }

    /// The first point of the head at which the whole train is past this point, which is not 0. Points must not fall from
    /// call to call.
    #[inline]
    pub fn passes(&mut self, point: u32) -> u32 {
        let Balises { stretches, step } = self.balises;
        let least = 50 * (point * step + self.length + 2);
        while stretches[self.stretch].most < least {
            self.stretch += 1;
        }
        let Stretch { start, balise, .. } = stretches[self.stretch];
        start.max((least - balise).div_ceil(49 * step))
    }
}
