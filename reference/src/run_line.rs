//! The command placerun: a request for place-run as one line of a script.
//!
//! ```text
//! placerun r=2 old=3,4 counts=2,1 nbrs=2,9,4 dist=6,10,5 left=0 right=30 ratings=1,1,7 answer=2
//! ```
//!
//! Each word is a name and a value, in any order, none twice. Without `left` or `right` there is no such bound, without
//! `ratings` there are as many as neighbours, all 1; `answer` is the length of the answer buffer, r if it is not said.

use crate::place_run::{place_run, MAX_BOXES};
use crate::requests::Request;
use crate::words::{list, listed, number};
use crate::Refusal;

/// What place-run answers to the request in these words; none if they are no request.
pub(crate) fn answer(words: &[&str]) -> Option<Result<Vec<i64>, Refusal>> {
    let mut given = Given::new(words)?;
    let r: u64 = number(given.take("r")?)?;
    let old: Vec<i64> = list(given.take("old")?)?;
    let counts: Vec<u64> = list(given.take("counts")?)?;
    let neighbours: Vec<i64> = list(given.take("nbrs")?)?;
    let distances: Vec<i128> = list(given.take("dist")?)?;
    let left = given.bound("left")?;
    let right = given.bound("right")?;
    let ratings: Vec<i128> = given.take("ratings").map_or(Some(vec![1; neighbours.len()]), list)?;
    let room: u64 = given.take("answer").map_or(Some(r), number)?;
    if !given.words.is_empty() {
        return None;
    }
    // Numbers that the call cannot be handed are beyond its limits too, and so are more boxes than a run has.
    let held = |numbers: Vec<i128>| numbers.into_iter().map(|n| i64::try_from(n).unwrap_or(i64::MAX)).collect();
    let (distances, ratings): (Vec<i64>, Vec<i64>) = (held(distances), held(ratings));
    let counts: Vec<usize> = counts.into_iter().map(|count| usize::try_from(count).unwrap_or(usize::MAX)).collect();
    let r = usize::try_from(r).unwrap_or(usize::MAX);
    let mut answer = vec![0; usize::try_from(room).unwrap_or(usize::MAX).min(MAX_BOXES + 1)];
    let placed = place_run(r, left, right, &old, &distances, &counts, &neighbours, &ratings, &mut answer);
    Some(placed.map(|()| answer))
}

/// Names with their values, those not taken yet.
struct Given<'a> {
    words: Vec<(&'a str, &'a str)>,
}

impl<'a> Given<'a> {
    fn new(words: &[&'a str]) -> Option<Self> {
        Some(Given { words: words.iter().map(|word| word.split_once('=')).collect::<Option<_>>()? })
    }

    /// The value of a name. A second one is left, so that the line has more words than it may.
    fn take(&mut self, name: &str) -> Option<&'a str> {
        let place = self.words.iter().position(|&(other, _)| other == name)?;
        Some(self.words.remove(place).1)
    }

    /// The bound of that name, or that there is none.
    fn bound(&mut self, name: &str) -> Option<Option<i64>> {
        match self.take(name) {
            Some(word) => number(word).map(Some),
            None => Some(None),
        }
    }
}

/// The line of a request; ratings that are all 1 are not said.
pub(crate) fn line(request: &Request) -> String {
    let Request { r, left, right, old, distances, counts, neighbours, ratings, answer } = request;
    let is_rated = *ratings != vec![1; neighbours.len()];
    let (old, counts, neighbours) = (listed(old), listed(counts), listed(neighbours));
    let mut line = format!("placerun r={r} old={old} counts={counts} nbrs={neighbours} dist={}", listed(distances));
    for (name, bound) in [("left", left.bound()), ("right", right.bound())] {
        if let Some(value) = bound {
            line += &format!(" {name}={value}");
        }
    }
    if is_rated {
        line += &format!(" ratings={}", listed(ratings));
    }
    if answer.len() as u64 != *r {
        line += &format!(" answer={}", answer.len());
    }
    line
}
