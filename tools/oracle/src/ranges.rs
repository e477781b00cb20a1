//! Cases for `replay_range`: the Rust's `AmbientRange`, and ranges narrowed to one pair of bounds and then to another.
use crate::text::{List, sum};
use original::mdr::payload::AmbientRange;

type Pair = (u8, u8);

const SMALL: [u8; 14] = [0, 1, 2, 3, 4, 5, 6, 7, 8, 9, 10, 11, 12, 13];
/// Ends and steps of ranges, and bounds and levels, that lie far apart.
const ENDS: [u8; 8] = [0, 1, 2, 20, 127, 128, 254, 255];
const APART: [u8; 8] = [0, 1, 5, 20, 127, 128, 254, 255];

/// The answers written down by hand: the case and its answer.
const BY_HAND: [(&str, &str); 12] = [
    // 0 to 3 by 1 within 1 to 2.
    ("t 0 3 1 1 2", "- 11 12 12 - 11 12 12 - - 22 22 - - - -"),
    ("r 0 3 1 1 2", "- 11 12 12 - 11 12 12 - - 22 22 - - - -"),
    ("o 0 3 1 1 2", "- 11 12 12 - 11 12 12 - - 22 22 - - - -"),
    ("l 0 3 1 1 2", "- 0100 0110 0110 - 0100 0110 0110 - - 0010 0010 - - - -"),
    // The levels 0 and 2.
    ("t 0 3 2 0 3", "00 00 02 02 - - 22 22 - - 22 22 - - - -"),
    ("l 0 3 2 0 3", "1000 1000 1010 1010 - - 0010 0010 - - 0010 0010 - - - -"),
    // The levels 1 and 3, of which a low of 2 leaves the second.
    ("t 1 3 2 2 3", "- - - 33 - - - 33 - - - 33 - - - 33"),
    // Step 0: by steps of 1, and every level that is left is refused.
    ("t 1 3 0 0 2", "- 11 12 12 - 11 12 12 - - 22 22 - - - -"),
    ("l 1 3 0 0 2", "- 0!00 0!!0 0!!0 - 0!00 0!!0 0!!0 - - 00!0 00!0 - - - -"),
    // Nothing in the range, nothing in the first pair, and a range without that pair's levels.
    ("t 2 1 1 0 3", "- - - - - - - - - - - - - - - -"),
    ("t 0 3 1 2 1", "- - - - - - - - - - - - - - - -"),
    ("l 0 3 3 1 2", "- - - - - - - - - - - - - - - -"),
];

pub fn list() -> List {
    let mut list = List::default();
    each(&SMALL[..9], &SMALL, &SMALL[..7], |r| add_calls(&mut list, r));
    each(&ENDS, &ENDS, &ENDS, |r| add_calls(&mut list, r));
    // Every two pairs of bounds up to 3, each answer by itself.
    each(&SMALL[..4], &SMALL[..4], &SMALL[..5], |r| {
        for by in pairs(&SMALL[..4]) {
            for letter in ['t', 'r', 'o', 'l'] {
                let AmbientRange { min, max, step, .. } = r;
                list.add(format!("{letter} {min} {max} {step} {} {}", by.0, by.1), words(letter, r, by));
            }
        }
    });
    let known: Vec<(&str, &str)> = list.cases.lines().zip(list.answers.lines()).collect();
    for case in BY_HAND {
        assert!(known.contains(&case), "{case:?}");
    }
    each(&SMALL[..8], &SMALL[..8], &SMALL[..9], |r| add_sum(&mut list, 's', r, &SMALL[..8]));
    each(&APART, &APART, &APART, |r| add_sum(&mut list, 'e', r, &APART));
    list
}

fn range(min: u8, max: u8, step: u8) -> AmbientRange {
    AmbientRange { voice: step % 2 == 1, min, max, step }
}

fn each(mins: &[u8], maxes: &[u8], steps: &[u8], mut case: impl FnMut(AmbientRange)) {
    for &min in mins {
        for &max in maxes {
            for &step in steps {
                case(range(min, max, step));
            }
        }
    }
}

/// OURS: refusal 22 where the Rust panics.
fn admits(r: AmbientRange, level: i32) -> u8 {
    if r.step == 0 && (i32::from(r.min)..=i32::from(r.max)).contains(&level) {
        return 22;
    }
    u8::from(r.admits(level))
}

/// What a narrowing leaves, as bytes to sum.
fn shown(left: Option<AmbientRange>) -> Vec<u8> {
    left.map_or(vec![0], |w| vec![1 + u8::from(w.voice), w.min, w.max, w.step])
}

/// `admits` of many levels, and `within` of many pairs.
fn add_calls(list: &mut List, r: AmbientRange) {
    let AmbientRange { min, max, step, .. } = r;
    let levels = (0..256).chain([i32::MIN, i32::MIN + 1, -256, -255, -1, 256, 257, i32::MAX - 1, i32::MAX]);
    let total = levels.fold(0, |t, level| sum(t, &[admits(r, level)]));
    list.add(format!("a {min} {max} {step}"), total.to_string());
    let bounds: Vec<u8> = (0..24).chain([127, 128, 254, 255]).collect();
    let total = pairs(&bounds).into_iter().fold(0, |t, (low, high)| sum(t, &shown(r.within(low, high))));
    list.add(format!("w {min} {max} {step}"), total.to_string());
}

fn pairs(bounds: &[u8]) -> Vec<Pair> {
    bounds.iter().flat_map(|&low| bounds.iter().map(move |&high| (low, high))).collect()
}

fn twice(r: AmbientRange, by: Pair, then: Pair) -> Option<AmbientRange> {
    r.within(by.0, by.1)?.within(then.0, then.1)
}

fn once(r: AmbientRange, by: Pair, then: Pair) -> Option<AmbientRange> {
    r.within(by.0.max(then.0), by.1.min(then.1))
}

/// A word for each second pair.
fn words(letter: char, r: AmbientRange, by: Pair) -> String {
    let ends = |w: AmbientRange| format!("{}{}", w.min, w.max);
    let mark = |answer: u8| if answer == 22 { '!' } else { char::from(b'0' + answer) };
    let word = |then: Pair| match letter {
        't' => twice(r, by, then).map(ends),
        'r' => twice(r, then, by).map(ends),
        'o' => once(r, by, then).map(ends),
        _ => levels(r, by, then, &SMALL[..4]).map(|all| all.into_iter().map(mark).collect()),
    };
    pairs(&SMALL[..4]).into_iter().map(|then| word(then).unwrap_or("-".into()) + " ").collect()
}

/// OURS: what `admits` answers of each level after both narrowings. By 02 it is what it answered before, where the level lies in both
/// pairs, and no elsewhere; and nothing is left where no level is. A step of 0 admits none: there the range that the original leaves is asked.
fn levels(r: AmbientRange, by: Pair, then: Pair, asked: &[u8]) -> Option<Vec<u8>> {
    let left = twice(r, by, then);
    if r.step == 0 {
        return left.map(|w| asked.iter().map(|&n| admits(w, n.into())).collect());
    }
    let kept = |n: u8| (by.0..=by.1).contains(&n) && (then.0..=then.1).contains(&n) && r.admits(n.into());
    assert_eq!(left.is_none(), !(0..=255).any(kept), "{r:?} {by:?} {then:?}");
    left.map(|_| asked.iter().map(|&n| kept(n).into()).collect())
}

/// All of these of every two pairs of the bounds.
fn add_sum(list: &mut List, letter: char, r: AmbientRange, bounds: &[u8]) {
    let mut total = 0;
    for by in pairs(bounds) {
        for then in pairs(bounds) {
            total = sum(total, &shown(twice(r, by, then)));
            total = sum(total, &shown(twice(r, then, by)));
            total = sum(total, &shown(once(r, by, then)));
            total = sum(total, &levels(r, by, then, bounds).unwrap_or(vec![0]));
        }
    }
    list.add(format!("{letter} {} {} {}", r.min, r.max, r.step), total.to_string());
}
