//! Crews to play with: tables, the points their members use, and how busy and how unlucky they are.

use crate::names::{Controller, Job, Point};
use crate::random::Random;
use crate::table::Table;

/// The shape of a crew: its table, and how many points it uses in each job.
#[derive(Clone, Copy, PartialEq, Eq, Debug)]
pub enum Shape {
    /// Job 0 held by controller 1 alone.
    Solo,
    /// Job 0 held by 1 and 2: the examples' table.
    Pair,
    /// Job 0 held by 1, 2 and 3.
    Trio,
    /// Each job held by two neighbours: 1 and 2, 2 and 3, and so on.
    Chain,
    /// All eight hold job 0, and each pair of neighbours another job.
    Eight,
    /// One big job, jobs with one or two holders, a job that nobody holds, and controllers 7 and 8 in no job.
    Few,
    /// Overlapping jobs of three or four holders.
    Overlap,
    /// Three controllers with more points than an image can store.
    Many,
    /// A pair and a trio whose counters start shortly before the last one.
    Top,
    /// Any table.
    Any,
}

impl Shape {
    /// All shapes, with the names used on the command line.
    pub const ALL: [(&'static str, Shape); 10] = [
        ("solo", Shape::Solo),
        ("pair", Shape::Pair),
        ("trio", Shape::Trio),
        ("chain", Shape::Chain),
        ("eight", Shape::Eight),
        ("few", Shape::Few),
        ("overlap", Shape::Overlap),
        ("many", Shape::Many),
        ("top", Shape::Top),
        ("any", Shape::Any),
    ];

    /// The shape of that name.
    pub fn named(name: &str) -> Option<Shape> {
        Shape::ALL.iter().find(|(known, _)| *known == name).map(|(_, shape)| *shape)
    }

    /// Its name.
    pub fn name(self) -> &'static str {
        Shape::ALL.iter().find(|(_, shape)| *shape == self).expect("every shape has a name").0
    }

    /// A table of this shape.
    pub fn table(self, random: &mut Random) -> Table {
        Table(match self {
            Shape::Solo => [1, 0, 0, 0, 0, 0, 0, 0],
            Shape::Pair => [3, 0, 0, 0, 0, 0, 0, 0],
            Shape::Trio => [7, 0, 0, 0, 0, 0, 0, 0],
            Shape::Chain => [3, 6, 12, 24, 48, 96, 192, 129],
            Shape::Eight => [255, 3, 6, 12, 24, 48, 96, 192],
            Shape::Few => [0x3f, 0x01, 0x12, 0, 0x20, 0x05, 0, 0x03],
            Shape::Overlap => [0x0f, 0x3c, 0xf0, 0xc3, 0x15, 0, 0, 0x2a],
            Shape::Many => [7, 7, 5, 0, 0, 0, 0, 0],
            Shape::Top => [0x1b, 0x1c, 0, 0, 0, 0, 0, 0],
            Shape::Any => std::array::from_fn(|_| match random.below(4) {
                0 => 0,
                1 => 1 << random.below(8) | 1 << random.below(8),
                2 => random.below(256) as u8 & random.below(256) as u8,
                _ => random.below(256) as u8,
            }),
        })
    }

    /// The points that the crew uses: in each job that somebody holds, a few numbers, low and high.
    pub fn points(self, table: &Table, random: &mut Random) -> Vec<Point> {
        let mut points = Vec::new();
        for job in Job::all().filter(|&job| Controller::all().any(|n| table.holds(n, job))) {
            let many = match self {
                Shape::Many => random.between(30, 45),
                Shape::Solo => random.between(1, 70),
                _ => random.between(1, 5),
            };
            for step in 0..many as u16 {
                let number = if step % 5 == 4 { 65535 - step } else { 1 + step * 3 };
                points.extend(Point::new(job.number(), number));
            }
        }
        points.sort();
        points
    }

    /// The base that every row starts from.
    pub fn first_base(self, random: &mut Random) -> u32 {
        match self {
            Shape::Top => u32::MAX - random.between(0, 90) as u32,
            _ => 0,
        }
    }
}

/// How often things happen, as shares of the steps, and how often a message is lost.
#[derive(Clone, Debug)]
pub struct Weather {
    /// Shares of: write, delete, take in, read, ask, reply, repair, strip pass, a whole round of ask, reply, repair.
    pub shares: [usize; 9],
    /// Percent of messages that get lost.
    pub loss: usize,
    /// Percent of deliveries that take any old message instead of a fresh one.
    pub late: usize,
    /// Percent of writes given a context that covers the present reading.
    pub covering: usize,
    /// Percent of writes that are a burst of many.
    pub burst: usize,
}

impl Weather {
    /// Some weather.
    pub fn any(random: &mut Random) -> Weather {
        let mut shares = [18, 7, 34, 4, 4, 6, 7, 2, 18];
        for share in &mut shares {
            *share = *share * random.between(20, 180) / 100 + 1;
        }
        if random.percent(15) {
            // No rounds at all for a while: lists fill up, and only stray asks get through.
            shares[8] = 0;
        }
        if random.percent(10) {
            // Silence: nobody takes in anything but replies.
            shares[2] = 0;
        }
        Weather {
            shares,
            loss: *random.pick(&[0, 10, 30, 60, 90]),
            late: *random.pick(&[5, 30, 60, 100]),
            covering: *random.pick(&[10, 50, 80, 95]),
            burst: *random.pick(&[0, 1, 3]),
        }
    }

    /// Picks a place by its share.
    pub fn choose(&self, random: &mut Random) -> usize {
        let mut left = random.below(self.shares.iter().sum());
        for (place, share) in self.shares.iter().enumerate() {
            if left < *share {
                return place;
            }
            left -= share;
        }
        unreachable!("the shares sum up")
    }
}
