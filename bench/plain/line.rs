//! The line file: taken apart without copying, and checked by rules 1 to 10 and 15.

use crate::Refusal;
use std::ops::{Range, RangeInclusive};

/// Numbers of 16 bits, low byte first, where they lie in the file.
#[derive(Clone, Copy)]
pub struct Words<'a>(&'a [u8]);

impl<'a> Words<'a> {
    pub fn len(self) -> usize {
        self.0.len() / 2
    }

    pub fn get(self, i: usize) -> usize {
        u16::from_le_bytes([self.0[2 * i], self.0[2 * i + 1]]) as usize
    }

    pub fn iter(self) -> impl DoubleEndedIterator<Item = usize> + 'a {
        self.0.chunks_exact(2).map(|word| u16::from_le_bytes([word[0], word[1]]) as usize)
    }

    pub fn last(self) -> Option<usize> {
        self.iter().next_back()
    }

    fn all_within(self, range: RangeInclusive<usize>) -> bool {
        self.iter().all(|word| range.contains(&word))
    }

    /// Whether each word is by at least `gap` more than the one before it.
    fn rise_by(self, gap: usize) -> bool {
        self.iter().zip(self.iter().skip(1)).all(|(before, here)| before + gap <= here)
    }
}

pub struct Train<'a> {
    pub class: usize,
    pub length: usize,
    pub tops: Words<'a>,
    pub rates: Words<'a>,
    pub stops: Words<'a>,
    pub dwells: Words<'a>,
    record: Range<usize>,
}

pub struct Line<'a> {
    pub points: usize,
    pub step: usize,
    pub set_up: usize,
    pub release: usize,
    pub limit_points: Words<'a>,
    pub limits: Words<'a>,
    pub block_starts: Words<'a>,
    pub block_ends: Words<'a>,
    pub balise_points: Words<'a>,
    pub balise_metres: Words<'a>,
    pub trains: Trains<'a>,
}

/// The train records, where they lie in the file.
pub struct Trains<'a> {
    file: &'a [u8],
    at: usize,
    count: usize,
}

impl<'a> Trains<'a> {
    pub fn len(&self) -> usize {
        self.count
    }

    /// All trains, once they are known to be there.
    pub fn iter(&self) -> impl Iterator<Item = Train<'a>> {
        let mut reader = Reader { file: self.file, at: self.at };
        (0..self.count).map_while(move |_| reader.train().ok())
    }
}

struct Reader<'a> {
    file: &'a [u8],
    at: usize,
}

impl<'a> Reader<'a> {
    fn words(&mut self, count: usize) -> Result<Words<'a>, Refusal> {
        let end = self.at + 2 * count;
        let bytes = self.file.get(self.at..end).ok_or(1u64)?;
        self.at = end;
        Ok(Words(bytes))
    }

    fn train(&mut self) -> Result<Train<'a>, Refusal> {
        let start = self.at;
        let head = self.words(4)?;
        let (bands, stops) = (head.get(2), head.get(3));
        Ok(Train {
            class: head.get(0),
            length: head.get(1),
            tops: self.words(bands)?,
            rates: self.words(bands)?,
            stops: self.words(stops)?,
            dwells: self.words(stops)?,
            record: start..self.at,
        })
    }

    fn line(&mut self) -> Result<Line<'a>, Refusal> {
        let head = self.words(7)?;
        let (limits, blocks, balises) = (head.get(2), head.get(3), head.get(6));
        let line = Line {
            points: head.get(0),
            step: head.get(1),
            set_up: head.get(4),
            release: head.get(5),
            limit_points: self.words(limits)?,
            limits: self.words(limits)?,
            block_starts: self.words(blocks)?,
            block_ends: self.words(blocks)?,
            balise_points: self.words(balises)?,
            balise_metres: self.words(balises)?,
            trains: {
                let count = self.words(1)?.get(0);
                Trains { file: self.file, at: self.at, count }
            },
        };
        for _ in 0..line.trains.len() {
            self.train()?;
        }
        if self.at == self.file.len() { Ok(line) } else { Err(2) }
    }
}

impl Train<'_> {
    /// The practice braking rate in cm/s².
    fn braking_rate(&self) -> usize {
        [50, 60, 31][self.class]
    }

    fn sizes_kept(&self) -> bool {
        self.class <= 2
            && (1..=1000).contains(&self.length)
            && (1..=8).contains(&self.tops.len())
            && self.stops.len() <= 32
    }

    fn bands_kept(&self) -> bool {
        self.tops.all_within(1..=300) && self.tops.rise_by(1) && self.rates.all_within(1..=200)
    }

    fn stops_kept(&self, points: usize) -> bool {
        self.stops.rise_by(2) && self.stops.all_within(0..=points - 1) && self.dwells.all_within(0..=3600)
    }
}

impl<'a> Line<'a> {
    /// The file's line with all its trains, if rules 1 to 9 and 15 are kept.
    pub fn open(file: &'a [u8]) -> Result<Self, Refusal> {
        let line = Reader { file, at: 0 }.line()?;
        match line.first_broken() {
            Some(number) => Err(number),
            None => Ok(line),
        }
    }

    pub fn train(&self, k: u64) -> Result<Train<'a>, Refusal> {
        usize::try_from(k).ok().and_then(|k| self.trains.iter().nth(k)).ok_or(10)
    }

    /// The place of balise j in metres from point 0.
    pub fn balise(&self, j: usize) -> usize {
        self.balise_points.get(j) * self.step + self.balise_metres.get(j)
    }

    /// The train's length in cells, rounded up.
    pub fn cells(&self, train: &Train) -> usize {
        train.length.div_ceil(self.step)
    }

    /// The squared speed lost over one cell at the braking rate.
    pub fn braking_loss(&self, train: &Train) -> u32 {
        (train.braking_rate() * 2592 * self.step) as u32
    }

    /// The first broken rule in checking order.
    fn first_broken(&self) -> Option<Refusal> {
        let rules: [(Refusal, fn(&Self) -> bool); 8] = [
            (3, Self::sizes_kept),
            (4, Self::limit_points_kept),
            (5, |line| line.limits.all_within(1..=300)),
            (6, Self::blocks_kept),
            (15, Self::balises_kept),
            (7, |line| line.trains.iter().all(|train| train.bands_kept())),
            (8, |line| line.trains.iter().all(|train| train.stops_kept(line.points))),
            (9, Self::room_kept),
        ];
        rules.iter().find(|(_, kept)| !kept(self)).map(|(number, _)| *number)
    }

    fn sizes_kept(&self) -> bool {
        (3..=4096).contains(&self.points)
            && (1..=100).contains(&self.step)
            && (1..=64).contains(&self.limits.len())
            && (1..=32).contains(&self.block_ends.len())
            && self.balise_points.len() <= 64
            && (1..=64).contains(&self.trains.len())
            && self.trains.iter().all(|train| train.sizes_kept())
    }

    fn limit_points_kept(&self) -> bool {
        self.limit_points.get(0) == 0
            && self.limit_points.rise_by(1)
            && self.limit_points.all_within(0..=self.points - 2)
    }

    fn blocks_kept(&self) -> bool {
        let mut after = 0;
        for (start, end) in self.block_starts.iter().zip(self.block_ends.iter()) {
            if start < after || start >= end || end >= self.points {
                return false;
            }
            after = end;
        }
        self.block_starts.get(0) == 0
    }

    fn balises_kept(&self) -> bool {
        let last = (self.points - 1) * self.step;
        let mut least = 0;
        for j in 0..self.balise_points.len() {
            let place = self.balise(j);
            if place < least || last < place {
                return false;
            }
            least = place + 1;
        }
        self.balise_metres.all_within(0..=self.step - 1)
    }

    fn room_kept(&self) -> bool {
        let end = self.block_ends.last().unwrap_or(0);
        self.trains.iter().all(|train| end + self.cells(&train) < self.points)
    }
}

pub fn check_file(file: &[u8]) -> Result<(), Refusal> {
    Line::open(file).map(|_| ())
}

pub fn check_train(file: &[u8], k: u64) -> Result<(), Refusal> {
    train_record(file, k).map(|_| ())
}

/// Where the record of train k lies in the file.
pub fn train_record(file: &[u8], k: u64) -> Result<Range<usize>, Refusal> {
    Ok(Line::open(file)?.train(k)?.record)
}
