//! The proved place-run against the reference, on random requests.

use differential::proved;
use reference::random::Random;
use reference::requests::Request;

/// Compares on as many requests as asked for; how many were accepted and refused.
fn compare(request: impl Fn(&mut Random) -> Request, name: &str, times: u64) -> [u64; 2] {
    let mut outcomes = [0; 2];
    for seed in 0..times {
        let q = request(&mut Random::new(name, seed));
        let expected = q.outcome();
        let mut answer = q.answer.clone();
        let number = proved::place_run(&q, &mut answer);
        assert_eq!((number, answer), expected, "{name} {seed}: {q}");
        outcomes[usize::from(expected.0 != 0)] += 1;
    }
    println!("{name}: {} accepted, {} refused", outcomes[0], outcomes[1]);
    outcomes
}

#[test]
fn any_request() {
    let [accepted, refused] = compare(Request::any, "any", 150_000);
    assert!(accepted > 50_000 && refused > 10_000);
}

#[test]
fn between_feeds() {
    let [_, refused] = compare(Request::between_feeds, "between feeds", 150_000);
    assert_eq!(refused, 0);
}

#[test]
fn rated() {
    let [accepted, refused] = compare(Request::rated, "rated", 150_000);
    assert!(accepted > 50_000 && refused > 10_000);
}

#[test]
fn too_large() {
    let [accepted, _] = compare(Request::too_large, "too large", 2_000);
    assert_eq!(accepted, 0);
}
