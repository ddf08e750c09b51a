//! How long the proved place-run takes, beside the reference, in one process: ratios, with absolute times beside them; or, with `--times`,
//! how long it takes alone, for the script `compare-builds`.

use differential::measure::{asked_for_times, median, nanoseconds, seconds};
use differential::proved;
use reference::jumps::Placer;
use reference::place_run::Run;
use reference::random::Random;
use reference::requests::{Request, Scale};
use std::hint::black_box;

/// Random requests of each size.
const REQUESTS: usize = 16;

/// Short rounds and many of them, so that the median is of rounds that no other process broke into.
const ROUNDS: usize = 401;

/// Seconds that one call takes, over some passes through the requests.
fn seconds_each(passes: usize, mut call: impl FnMut(usize)) -> f64 {
    seconds(passes, || (0..REQUESTS).for_each(&mut call)) / REQUESTS as f64
}

/// Sizes of requests and their name.
struct Sort {
    boxes: usize,
    neighbours: usize,
    name: &'static str,
    scale: Scale,
    /// Whether they have ratings; without them, all are 1.
    is_rated: bool,
}

/// Accepted requests of this sort.
fn requests(sort: &Sort) -> Vec<Request> {
    let request = |seed| {
        let random = &mut Random::new("bench", seed);
        let mut request = Request::accepted(random, sort.boxes, sort.neighbours, sort.scale);
        if sort.is_rated {
            request.rate(random);
        }
        request
    };
    (0..REQUESTS as u64).map(request).collect()
}

/// The proved call alone.
fn time(sort: &Sort) {
    let requests = requests(sort);
    let Sort {
        boxes,
        neighbours,
        name,
        ..
    } = *sort;
    let mut answer = vec![0; boxes];
    let time = nanoseconds(|| {
        for request in &requests {
            black_box(proved::place_run(request, &mut answer));
        }
    });
    println!(
        "{:.1} r={boxes},s={neighbours},{name}",
        time / REQUESTS as f64
    );
}

/// The proved call against the reference's jumps, on the same accepted requests.
fn beside_reference(sort: &Sort) {
    let requests = requests(sort);
    let Sort {
        boxes,
        neighbours,
        name,
        ..
    } = *sort;
    let distances: Vec<Vec<i64>> = requests
        .iter()
        .map(|q| q.distances.iter().map(|&d| d as i64).collect())
        .collect();
    let counts: Vec<Vec<usize>> = requests
        .iter()
        .map(|q| q.counts.iter().map(|&c| c as usize).collect())
        .collect();
    let ratings: Vec<Vec<i64>> = requests
        .iter()
        .map(|q| q.ratings.iter().map(|&w| w as i64).collect())
        .collect();
    let mut ours = vec![vec![0; boxes]; REQUESTS];
    let mut theirs = ours.clone();
    let mut placer = Placer::new();
    let passes = 50_000 / (1 + boxes * 400 + neighbours * 20) + 1;
    let (mut proved_times, mut reference_times) = (Vec::new(), Vec::new());
    for _ in 0..ROUNDS {
        proved_times.push(seconds_each(passes, |i| {
            black_box(proved::place_run(&requests[i], &mut ours[i]));
        }));
        reference_times.push(seconds_each(passes, |i| {
            let q = &requests[i];
            let run = Run {
                left: q.left.bound(),
                right: q.right.bound(),
                old: &q.old,
                distances: &distances[i],
                counts: &counts[i],
                neighbours: &q.neighbours,
                ratings: &ratings[i],
            };
            assert!(black_box(run.is_acceptable()));
            placer.place(&run, &mut theirs[i]);
            black_box(&theirs);
        }));
    }
    assert_eq!(ours, theirs);
    let (a, b) = (median(proved_times), median(reference_times));
    println!(
        "place-run r={boxes:2} s={neighbours:4} {name:11}  proved {:9.3} us  reference {:9.3} us  ratio {:.2}",
        a * 1e6,
        b * 1e6,
        a / b
    );
}

fn main() {
    let measure = if asked_for_times("bench") {
        time
    } else {
        beside_reference
    };
    for boxes in [2, 8, 64] {
        for neighbours in [0, 64, 2_048] {
            for (name, scale, is_rated) in [
                ("near", Scale::NEAR, false),
                ("x2^30", Scale::NEAR.times(1 << 30), false),
                ("near-rated", Scale::NEAR, true),
                ("x2^30-rated", Scale::NEAR.times(1 << 30), true),
            ] {
                measure(&Sort {
                    boxes,
                    neighbours,
                    name,
                    scale,
                    is_rated,
                });
            }
        }
    }
}
