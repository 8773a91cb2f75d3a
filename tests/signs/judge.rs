//! A second judge: include/rungtwine.h read plainly, with the refusals, which the original does not have. It counts the branches that it takes.

use crate::cases::{Case, ABOVE, LIMIT};
use crate::seen::{Kind, Seen};

/// What comes back, and what is left of the two slices that may be written.
#[derive(Clone)]
pub struct Outcome {
    pub number: u8,
    pub place: usize,
    pub samples: Vec<f32>,
    pub matches: Vec<i8>,
}

fn bad(v: f32) -> bool {
    !(v.abs() <= LIMIT)
}

/// All checks that fail, in order, each with its place.
pub fn failing(case: &Case) -> Vec<(u8, usize)> {
    let texels = case.width as u128 * case.height as u128;
    let samples = texels.checked_mul(case.channels as u128);
    let sides = 1..=4096;
    let bad_sample = case.samples.iter().position(|&v| bad(v));
    let tests = [
        (1, ![1, 3, 4].contains(&case.channels)),
        (2, !sides.contains(&case.width) || !sides.contains(&case.height)),
        (3, samples != Some(case.samples.len() as u128)),
        (6, bad_sample.is_some()),
        (10, bad(case.zero)),
        (11, case.filled.len() as u128 != texels || case.filled.iter().any(|&byte| byte > 1)),
        (12, case.matches.len() as u128 != texels),
    ];
    let place = |number: u8| if number == 6 { bad_sample.unwrap_or(0) } else { 0 };
    tests.into_iter().filter(|&(_, fails)| fails).map(|(number, _)| (number, place(number))).collect()
}

/// The texels beside texel k.
fn neighbours(case: &Case, k: usize) -> Vec<usize> {
    let (w, h) = (case.width as i64, case.height as i64);
    let (x, y) = (k as i64 % w, k as i64 / w);
    let inside = |&(x, y): &(i64, i64)| (0..w).contains(&x) && (0..h).contains(&y);
    [(x - 1, y), (x + 1, y), (x, y - 1), (x, y + 1)].into_iter().filter(inside).map(|(x, y)| (y * w + x) as usize).collect()
}

/// The sum of the matches beside texel k.
fn vote(case: &Case, matches: &[i8], k: usize) -> i32 {
    neighbours(case, k).into_iter().map(|n| i32::from(matches[n])).sum()
}

/// The value that is neither the least nor the most of three.
fn middle(mut three: [f32; 3]) -> f32 {
    three.sort_by(f32::total_cmp);
    three[1]
}

/// Which branches a flip takes.
fn see_flip(zero: f32, v: f32, r: f32, seen: &mut Seen) {
    let double = zero + zero;
    // What was lost in the difference, which is a float itself.
    let part = r - double;
    let lost = (double - (r - part)) + (-v - part);
    seen.hit_if(lost != 0.0, Kind::Rounded);
    seen.hit_if(r == zero && v != zero, Kind::OntoZero);
    seen.hit_if(r.abs() > LIMIT, Kind::Beyond);
    seen.hit_if(r == 0.0 && v == 0.0 && r.to_bits() != v.to_bits(), Kind::FlippedZero);
    seen.hit_if(r.is_subnormal(), Kind::FlippedSubnormal);
}

fn flip(zero: f32, v: &mut f32, seen: &mut Seen) {
    let r = (zero + zero) - *v;
    see_flip(zero, *v, r, seen);
    *v = r;
}

fn see_size(case: &Case, seen: &mut Seen) {
    let (w, h) = (case.width, case.height);
    seen.hit(match case.channels {
        1 => Kind::Channels1,
        3 => Kind::Channels3,
        _ => Kind::Channels4,
    });
    seen.hit_if(w == 1 && h == 1, Kind::OneTexel);
    seen.hit_if(w > 1 && h == 1, Kind::OneRow);
    seen.hit_if(w == 1 && h > 1, Kind::OneColumn);
    seen.hit_if(w == 4096, Kind::WidthLimit);
    seen.hit_if(h == 4096, Kind::HeightLimit);
    seen.hit_if(case.samples.iter().any(|v| v.abs() == LIMIT), Kind::SampleLimit);
    seen.hit_if(case.zero.to_bits() == 0, Kind::ZeroPlus);
    seen.hit_if(case.zero.to_bits() == 0x8000_0000, Kind::ZeroMinus);
    seen.hit_if(case.zero < 0.0, Kind::ZeroNegative);
    seen.hit_if(case.zero == LIMIT, Kind::ZeroHighest);
    seen.hit_if(case.zero == -LIMIT, Kind::ZeroLowest);
    seen.hit_if(case.zero.is_subnormal(), Kind::ZeroSubnormal);
}

fn one_channel(case: &Case, samples: &mut [f32], seen: &mut Seen) {
    for (v, &filled) in samples.iter_mut().zip(&case.filled) {
        let amiss = (*v > case.zero) != (filled == 1);
        seen.hit(match (*v == case.zero, amiss) {
            (false, true) => Kind::AloneFlipped,
            (false, false) => Kind::AloneKept,
            (true, true) => Kind::AloneEqualFilled,
            (true, false) => Kind::AloneEqualEmpty,
        });
        if amiss {
            flip(case.zero, v, seen);
        }
    }
}

fn match_map(case: &Case) -> Vec<i8> {
    let texels = case.samples.chunks(case.channels).zip(&case.filled);
    texels
        .map(|(v, &filled)| {
            let m = middle([v[0], v[1], v[2]]);
            match (m < case.zero, m > case.zero, filled) {
                (true, _, 0) | (_, true, 1) => 1,
                (true, _, _) | (_, true, _) => -1,
                _ => 0,
            }
        })
        .collect()
}

/// Which branches the vote on texel k takes; `voted` has the map with the votes before it.
fn see_vote(case: &Case, matches: &[i8], voted: &[i8], k: usize, seen: &mut Seen) {
    let sum = vote(case, matches, k);
    let beside = neighbours(case, k);
    seen.hit(match sum.signum() {
        -1 => Kind::VoteNegative,
        0 => Kind::VoteZero,
        _ => Kind::VotePositive,
    });
    seen.hit_named(&format!("ambiguous, the sum {sum}"));
    seen.hit_if(sum == 0 && !beside.is_empty() && beside.iter().all(|&n| matches[n] == 0), Kind::SumNone);
    seen.hit_if(sum == 0 && beside.iter().any(|&n| matches[n] != 0), Kind::SumEven);
    seen.hit_if(sum >= 0 && beside.iter().any(|&n| matches[n] < 0), Kind::SumFlipped);
    seen.hit_if((sum < 0) != (vote(case, voted, k) < 0), Kind::VoteVoted);
    let line = case.width == 1 || case.height == 1;
    seen.hit(match (beside.len(), line) {
        (0, _) => Kind::NoNeighbour,
        (1, _) => Kind::RowEnd,
        (2, true) => Kind::InRow,
        (2, false) => Kind::AtCorner,
        (3, _) => Kind::AtEdge,
        _ => Kind::Inside,
    });
}

fn see_fourth(matched: i8, turns: bool, amiss: bool, v: f32, case: &Case, seen: &mut Seen) {
    seen.hit(match (turns, amiss) {
        (true, true) => Kind::FourthBoth,
        (false, false) => Kind::FourthNeither,
        (false, true) => Kind::FourthAlone,
        (true, false) => Kind::FourthStays,
    });
    seen.hit_if(matched == 0 && turns && amiss, Kind::FourthVoteFlips);
    seen.hit_if(matched == 0 && turns && !amiss, Kind::FourthVoteStays);
    seen.hit_if(matched == 0 && !turns && amiss, Kind::FourthAmbiguous);
    seen.hit_if(v == case.zero && amiss, Kind::FourthEqual);
}

fn more_channels(case: &Case, samples: &mut [f32], seen: &mut Seen) -> Vec<i8> {
    let matches = match_map(case);
    let mut voted = matches.clone();
    for (k, texel) in samples.chunks_mut(case.channels).enumerate() {
        let turns = match matches[k] {
            0 => {
                see_vote(case, &matches, &voted, k, seen);
                vote(case, &matches, k) < 0
            }
            m => m < 0,
        };
        if turns {
            voted[k] = -1;
            texel[..3].iter_mut().for_each(|v| flip(case.zero, v, seen));
        }
        seen.hit(match matches[k] {
            -1 => Kind::MedianFlipped,
            0 => Kind::MedianAmbiguous,
            _ => Kind::MedianKept,
        });
        if let Some(v) = texel.get_mut(3) {
            let amiss = (*v > case.zero) != (case.filled[k] == 1);
            see_fourth(matches[k], turns, amiss, *v, case, seen);
            if amiss {
                flip(case.zero, v, seen);
            }
        }
    }
    seen.hit_if(matches.iter().all(|&m| m != 0), Kind::NoneAmbiguous);
    seen.hit_if(matches.iter().all(|&m| m == 0), Kind::AllAmbiguous);
    matches
}

/// Which way a number that has to be of a size is bad: NaN, infinite, minus infinite, one step above or below the limit.
fn way(v: f32) -> Option<usize> {
    [v.is_nan(), v == f32::INFINITY, v == f32::NEG_INFINITY, v == ABOVE, v == -ABOVE].into_iter().position(|is| is)
}

/// Which way a list is not as long as it has to be: empty, one short, one more.
fn length_way(length: usize, due: usize) -> Option<usize> {
    [length == 0, length + 1 == due, length == due + 1].into_iter().position(|is| is)
}

fn hit_way<const N: usize>(way: Option<usize>, kinds: [Kind; N], seen: &mut Seen) {
    if let Some(kind) = way.and_then(|k| kinds.get(k)) {
        seen.hit(*kind);
    }
}

fn see_sample(case: &Case, place: usize, seen: &mut Seen) {
    use Kind::*;
    let (v, last) = (case.samples[place], case.samples.len() - 1);
    if place == 0 {
        hit_way(way(v), [FirstNan, FirstInfinite, FirstMinusInfinite, FirstAbove, FirstBelow], seen);
    }
    if place == last {
        hit_way(way(v), [LastNan, LastInfinite, LastMinusInfinite, LastAbove, LastBelow], seen);
    }
    seen.hit_if(0 < place && place < last, SampleBetween);
    seen.hit_if(case.samples[place + 1..].iter().any(|&v| bad(v)), SampleTwice);
}

/// Which branches a refusal takes.
fn see_refusal(case: &Case, failing: &[(u8, usize)], seen: &mut Seen) {
    use Kind::*;
    let (number, place) = failing[0];
    for (later, _) in &failing[1..] {
        seen.hit_named(&format!("order, {number} before {later}"));
    }
    let only = failing.len() == 1;
    let texels = case.width.wrapping_mul(case.height);
    let side = |side: usize| [0, 4097, usize::MAX].into_iter().position(|s| s == side);
    match number {
        1 => {
            seen.hit_if(only, Only1);
            hit_way([0, 2, 5, usize::MAX].into_iter().position(|c| c == case.channels), [Channels0, Channels2, Channels5, ChannelsMost], seen);
        }
        2 => {
            seen.hit_if(only, Only2);
            hit_way(side(case.width), [Width0, WidthOver, WidthMost], seen);
            hit_way(side(case.height), [Height0, HeightOver, HeightMost], seen);
        }
        3 => {
            seen.hit_if(only, Only3);
            hit_way(length_way(case.samples.len(), texels * case.channels), [SamplesNone, SamplesShort, SamplesLong], seen);
        }
        6 => {
            seen.hit_if(only, Only6);
            see_sample(case, place, seen);
        }
        10 => {
            seen.hit_if(only, Only10);
            hit_way(way(case.zero), [ZeroNan, ZeroInfinite, ZeroMinusInfinite, ZeroAbove, ZeroBelow], seen);
        }
        11 => {
            seen.hit_if(only, Only11);
            hit_way(length_way(case.filled.len(), texels), [FilledNone, FilledShort, FilledLong], seen);
            if case.filled.len() == texels {
                seen.hit_if(case.filled[0] == 2, FilledFirst);
                seen.hit_if(case.filled[texels - 1] == 2, FilledLast);
                seen.hit_if(case.filled.contains(&255), FilledMost);
            }
        }
        _ => {
            seen.hit(Only12);
            hit_way(length_way(case.matches.len(), texels), [MatchesNone, MatchesShort, MatchesLong], seen);
        }
    }
}

pub fn judge(case: &Case, seen: &mut Seen) -> Outcome {
    let failing = failing(case);
    let mut samples = case.samples.clone();
    if let Some(&(number, place)) = failing.first() {
        see_refusal(case, &failing, seen);
        return Outcome { number, place, samples, matches: case.matches.clone() };
    }
    see_size(case, seen);
    let matches = if case.channels == 1 {
        one_channel(case, &mut samples, seen);
        vec![0; case.filled.len()]
    } else {
        more_channels(case, &mut samples, seen)
    };
    Outcome { number: 0, place: 0, samples, matches }
}
