//! Requests for place-run as plain numbers: random ones, accepted and refused in every way, and their lines of text.
//!
//! A request's line has r, then flag and value of the left bound and of the right one (a flag of 0 means that there is
//! none), then old positions, distances, neighbour counts, neighbours, ratings and the answer buffer, each as its length and its
//! numbers. The line of its outcome has 0 or 8 and the answer buffer afterwards.

use crate::place_run::{place_run, MAX_BOXES, MAX_DISTANCE, MAX_NEIGHBOURS, MAX_POSITION};
use crate::random::Random;
use crate::{ratings, Refusal};
use std::fmt::{self, Display};

/// A side of a run: whether there is a bound (the flag is not 0), and its value, ignored where there is none.
#[derive(Clone, Copy, Debug)]
pub struct Side {
    /// Not 0 if there is a bound.
    pub flag: u32,
    /// Where it stands.
    pub value: i64,
}

impl Side {
    /// The bound, if there is one.
    pub fn bound(self) -> Option<i64> {
        (self.flag != 0).then_some(self.value)
    }
}

/// What is handed to place-run.
#[derive(Clone, Debug)]
pub struct Request {
    /// The number of boxes.
    pub r: u64,
    /// The left side.
    pub left: Side,
    /// The right side.
    pub right: Side,
    /// Old positions.
    pub old: Vec<i64>,
    /// Distances of neighbouring members.
    pub distances: Vec<u64>,
    /// How many neighbours each box has.
    pub counts: Vec<u64>,
    /// All neighbours, box by box.
    pub neighbours: Vec<i64>,
    /// The ratings of the segments to them.
    pub ratings: Vec<u64>,
    /// The answer buffer before the call.
    pub answer: Vec<i64>,
}

/// How large positions and distances are.
#[derive(Clone, Copy, Debug)]
pub struct Scale {
    /// Positions lie within ± this.
    pub position: i64,
    /// Distances are at most this.
    pub distance: i64,
}

impl Scale {
    /// Close together, so that halves overlap often.
    pub const NEAR: Scale = Scale { position: 300, distance: 40 };
    /// As large as the call takes.
    pub const EXTREME: Scale = Scale { position: MAX_POSITION, distance: MAX_DISTANCE };

    /// Everything times a factor.
    pub fn times(self, factor: i64) -> Scale {
        Scale { position: self.position * factor, distance: self.distance * factor }
    }
}

impl Request {
    /// The number of its refusal, 0 if accepted, and the answer buffer afterwards.
    pub fn outcome(&self) -> (Refusal, Vec<i64>) {
        let distances: Vec<i64> = self.distances.iter().map(|&d| i64::try_from(d).unwrap_or(i64::MAX)).collect();
        let counts: Vec<usize> = self.counts.iter().map(|&c| usize::try_from(c).unwrap_or(usize::MAX)).collect();
        let ratings: Vec<i64> = self.ratings.iter().map(|&w| i64::try_from(w).unwrap_or(i64::MAX)).collect();
        let r = usize::try_from(self.r).unwrap_or(usize::MAX);
        let mut answer = self.answer.clone();
        let placed = place_run(
            r,
            self.left.bound(),
            self.right.bound(),
            &self.old,
            &distances,
            &counts,
            &self.neighbours,
            &ratings,
            &mut answer,
        );
        (placed.err().unwrap_or(0), answer)
    }

    /// The line of its outcome, without LF.
    pub fn outcome_line(&self) -> String {
        let (number, answer) = self.outcome();
        answer.iter().fold(number.to_string(), |line, x| line + " " + &x.to_string())
    }

    /// A request that is accepted, with `boxes` boxes and `neighbours` neighbours in all, all ratings 1.
    pub fn accepted(random: &mut Random, boxes: usize, neighbours: usize, scale: Scale) -> Request {
        let mut counts = vec![0u64; boxes];
        for _ in 0..neighbours {
            if boxes > 0 {
                counts[random.below(boxes)] += 1;
            }
        }
        Request::with_counts(random, counts, scale)
    }

    /// A request that is accepted, its boxes with so many neighbours each, all ratings 1.
    fn with_counts(random: &mut Random, counts: Vec<u64>, scale: Scale) -> Request {
        let position = |random: &mut Random| random.within(-scale.position, scale.position);
        let boxes = counts.len();
        let mut all = Vec::new();
        for &count in &counts {
            let mut own: Vec<i64> = (0..count).map(|_| position(random)).collect();
            own.sort_unstable();
            all.extend(own);
        }
        let mut request = Request {
            r: boxes as u64,
            left: absent(random),
            right: absent(random),
            old: (0..boxes).map(|_| position(random)).collect(),
            distances: Vec::new(),
            counts,
            ratings: vec![1; all.len()],
            neighbours: all,
            answer: (0..boxes).map(|_| position(random)).collect(),
        };
        request.bound(random, scale);
        request
    }

    /// Gives it bounds, or none, and as many distances as its members ask for.
    fn bound(&mut self, random: &mut Random, scale: Scale) {
        let sides = random.below(4);
        let (has_left, has_right) = (sides % 2 == 1, sides / 2 == 1);
        let members = self.old.len() + usize::from(has_left) + usize::from(has_right);
        let both = has_left && has_right;
        let most = if both { scale.distance.min(2 * scale.position / members.max(1) as i64) } else { scale.distance };
        let gaps = members.saturating_sub(1);
        self.distances = (0..gaps).map(|_| random.within(1, most.max(1)) as u64).collect();
        let span: i64 = if both { self.distances.iter().map(|&d| d as i64).sum() } else { 0 };
        let room = 2 * scale.position - span;
        if both && room < 0 {
            self.distances.iter_mut().for_each(|d| *d = 1);
            return self.sides(random, scale, has_left, has_right, gaps as i64);
        }
        self.sides(random, scale, has_left, has_right, span);
    }

    fn sides(&mut self, random: &mut Random, scale: Scale, has_left: bool, has_right: bool, span: i64) {
        let left = random.within(-scale.position, (scale.position - span).max(-scale.position));
        let right = random.within((left + span).min(scale.position), scale.position);
        if has_left {
            self.left = Side { flag: 1 + random.below(5) as u32, value: left };
        }
        if has_right {
            let value = if has_left { right } else { random.within(-scale.position, scale.position) };
            self.right = Side { flag: 1 + random.below(5) as u32, value };
        }
    }

    /// A random request of any size and scale, damaged once in three times; all ratings are 1.
    pub fn any(random: &mut Random) -> Request {
        let boxes = random.pick(&[0, 1, 2, 3, 4, 5, 8, 16, 33, MAX_BOXES]);
        let neighbours = random.pick(&[0, 1, 3, 10, 64, 200, MAX_NEIGHBOURS]);
        let neighbours = random.below(neighbours + 1);
        let scale = random.pick(&[Scale::NEAR, Scale::NEAR, Scale::NEAR.times(1 << 30), Scale::EXTREME]);
        let mut request = Request::accepted(random, boxes, neighbours, scale);
        if random.once_in(3) {
            request.damage(random);
            request.ratings = vec![1; request.neighbours.len()];
        }
        request
    }

    /// A request that is accepted, each of its few boxes with two or four neighbours, so that it matters where a lone box
    /// starts between two middle ones (E4).
    pub fn between_feeds(random: &mut Random) -> Request {
        let boxes = random.pick(&[1, 1, 2, 3, 5, 8]);
        let counts = (0..boxes).map(|_| random.pick(&[2, 2, 4])).collect();
        let scale = random.pick(&[Scale::NEAR, Scale::NEAR.times(1 << 30), Scale::EXTREME]);
        Request::with_counts(random, counts, scale)
    }

    /// A request of either sort with random ratings (E5), which are damaged once in six times. With few neighbours it is often so
    /// that twice the ratings so far are the total of all.
    pub fn rated(random: &mut Random) -> Request {
        let mut request = if random.once_in(3) { Request::any(random) } else { Request::between_feeds(random) };
        request.rate(random);
        if random.once_in(6) {
            request.damage_ratings(random);
        }
        request
    }

    /// Gives it random ratings, one for each neighbour.
    pub fn rate(&mut self, random: &mut Random) {
        let choice = ratings::choose(random);
        self.ratings = self.neighbours.iter().map(|_| random.pick(choice).unsigned_abs()).collect();
    }

    /// One rating more or less, or one at a limit, some of them with the last bits of a rating.
    fn damage_ratings(&mut self, random: &mut Random) {
        match random.below(4) {
            0 => self.ratings.push(1),
            1 => drop(self.ratings.pop()),
            _ => set(random, &mut self.ratings, &[0, 1, 100, 101, 257, (1 << 32) + 1, 1 << 63, u64::MAX]),
        }
    }

    /// Changes one thing, so that it is refused, or just not.
    fn damage(&mut self, random: &mut Random) {
        let huge = [MAX_POSITION, MAX_POSITION + 1, -MAX_POSITION, -MAX_POSITION - 1, i64::MAX, i64::MIN];
        match random.below(16) {
            0 => self.r = random.pick(&[self.r + 1, self.r.wrapping_sub(1), 65, u64::MAX]),
            1 => self.old.push(0),
            2 => drop(self.old.pop()),
            3 => self.distances.push(1),
            4 => drop(self.distances.pop()),
            5 => self.counts.push(0),
            6 => drop(self.counts.pop()),
            7 => self.neighbours.push(MAX_POSITION),
            8 => drop(self.neighbours.pop()),
            9 => self.answer.push(7),
            10 => set(random, &mut self.old, &huge),
            11 => set(random, &mut self.neighbours, &huge),
            12 => set(random, &mut self.distances, &[0, 1, MAX_DISTANCE as u64, MAX_DISTANCE as u64 + 1, u64::MAX]),
            13 => set(random, &mut self.counts, &[u64::MAX, u64::MAX / 2 + 1, 2_049, 0]),
            14 => random.shuffle(&mut self.neighbours),
            _ => {
                let side = if random.once_in(2) { &mut self.left } else { &mut self.right };
                side.value = random.pick(&huge);
            }
        }
    }

    /// More boxes or neighbours than the call takes, each slice of the right length.
    pub fn too_large(random: &mut Random) -> Request {
        let (boxes, neighbours) = random.pick(&[(65, 10), (64, 2_049), (1, 2_049), (100, 0), (65, 2_049)]);
        Request::accepted(random, boxes, neighbours, Scale::NEAR)
    }
}

fn absent(random: &mut Random) -> Side {
    Side { flag: 0, value: random.pick(&[0, i64::MAX, i64::MIN, MAX_POSITION + 1]) }
}

fn set<T: Copy>(random: &mut Random, items: &mut [T], values: &[T]) {
    if !items.is_empty() {
        let at = random.below(items.len());
        items[at] = random.pick(values);
    }
}

impl Display for Request {
    fn fmt(&self, f: &mut fmt::Formatter<'_>) -> fmt::Result {
        write!(f, "{} {} {} {} {}", self.r, self.left.flag, self.left.value, self.right.flag, self.right.value)?;
        list(f, &self.old)?;
        list(f, &self.distances)?;
        list(f, &self.counts)?;
        list(f, &self.neighbours)?;
        list(f, &self.ratings)?;
        list(f, &self.answer)
    }
}

fn list<T: Display>(f: &mut fmt::Formatter<'_>, items: &[T]) -> fmt::Result {
    write!(f, " {}", items.len())?;
    items.iter().try_for_each(|item| write!(f, " {item}"))
}

/// Cases 3 to 7 of document 01; boxes between two feeds (E4): half an odd sum, and half a negative one; and rated ones (E5): the
/// middles by ratings, apart where twice the ratings so far reach the total and do not exceed it, and rated resistance.
pub fn cases() -> Vec<Request> {
    let rated = |left: Side, old: &[i64], distances: &[u64], near: &[&[(i64, u64)]]| Request {
        r: old.len() as u64,
        left,
        right: Side { flag: 0, value: 0 },
        old: old.to_vec(),
        distances: distances.to_vec(),
        counts: near.iter().map(|own| own.len() as u64).collect(),
        neighbours: near.concat().iter().map(|&(n, _)| n).collect(),
        ratings: near.concat().iter().map(|&(_, rating)| rating).collect(),
        answer: vec![0; old.len()],
    };
    let request = |left: Side, old: &[i64], distances: &[u64], near: &[&[i64]]| {
        let near: Vec<Vec<(i64, u64)>> = near.iter().map(|own| own.iter().map(|&n| (n, 1)).collect()).collect();
        rated(left, old, distances, &near.iter().map(Vec::as_slice).collect::<Vec<_>>())
    };
    let none = Side { flag: 0, value: 0 };
    vec![
        request(none, &[0], &[], &[&[4, 10]]),
        request(none, &[0], &[], &[&[4, 10, 11]]),
        request(none, &[7], &[], &[&[]]),
        request(Side { flag: 1, value: 0 }, &[0], &[6], &[&[2]]),
        request(none, &[0, 0, 0, 100], &[10, 10, 10], &[&[0, 0, 0], &[0], &[12, 12, 12], &[]]),
        request(none, &[0], &[], &[&[4, 9]]),
        request(none, &[0], &[], &[&[-5, 2]]),
        rated(none, &[0], &[], &[&[(4, 1), (10, 2)]]),
        rated(none, &[0], &[], &[&[(4, 100), (10, 99)]]),
        rated(none, &[0], &[], &[&[(-20, 1), (-5, 2), (2, 2), (30, 1)]]),
        rated(none, &[0], &[], &[&[(-5, 3), (2, 1), (9, 2)]]),
        rated(none, &[0], &[], &[&[(0, 1), (10, 1), (20, 3), (30, 1)]]),
        rated(none, &[0, 0], &[4], &[&[(0, 1)], &[(0, 3)]]),
        rated(none, &[0, 0], &[4], &[&[(0, 3), (1, 2)], &[(0, 5)]]),
    ]
}
