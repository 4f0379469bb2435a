//! A picture of noise in the terminal: how many samples fall in each range, beside the counts that are expected. Floats serve the
//! picture alone: the box has none.

use std::array;

use bliss_box::{thresholds, Deviation};

/// The ranges on each side of the middle one. The outermost two have no end.
const SIDE: i32 = 10;

const RANGES: usize = 2 * SIDE as usize + 1;

/// The columns of the longest bar.
const COLUMNS: f64 = 56.0;

/// The draws by which a base sample is chosen.
const DRAWS: f64 = (1u128 << 124) as f64;

/// What is shown of samples: the deviation that was asked for, their counts, range by range, and their sum of squares.
pub struct Picture {
    deviation: Deviation,
    counts: [usize; RANGES],
    squares: f64,
}

impl Picture {
    pub fn of(deviation: Deviation, samples: &[i32]) -> Picture {
        let mut counts = [0; RANGES];
        for sample in samples {
            counts[range_of(*sample, width(deviation))] += 1;
        }
        Picture { deviation, counts, squares: samples.iter().map(|sample| f64::from(*sample).powi(2)).sum() }
    }

    fn samples(&self) -> usize {
        self.counts.iter().sum()
    }

    /// The root of the mean square, beside the one that is expected.
    pub fn deviation(&self) -> String {
        let (samples, asked) = (self.samples() as f64, self.deviation);
        let (found, give_or_take) = ((self.squares / samples).sqrt(), real(asked) / (2.0 * samples).sqrt());
        format!("{found:.1}, where {asked} is expected, give or take {give_or_take:.1}")
    }

    /// A line for each range: its ends, its count, the expected count, and both as a bar and a mark.
    pub fn text(&self) -> String {
        let expected = expected(self.deviation, self.samples());
        let longest = expected.iter().copied().chain(self.counts.iter().map(|count| *count as f64)).fold(0.0, f64::max);
        let mut text = String::from("         samples   drawn  expected\n");
        for (range, (drawn, expected)) in self.counts.iter().zip(expected).enumerate() {
            let bar = bar(*drawn as f64 / longest, expected / longest);
            text += &format!("{:>16}  {drawn:>6}  {expected:>8.1}  {bar}\n", name(range, width(self.deviation)));
        }
        text
    }
}

fn real(deviation: Deviation) -> f64 {
    deviation.number() as f64
}

/// The values in a range: some 0.3 of the deviation. The number is odd, so that 0 is in the middle of the middle range.
fn width(deviation: Deviation) -> i32 {
    2 * (3 * deviation.number() as i32 / 20) + 1
}

fn range_of(sample: i32, width: i32) -> usize {
    let from_middle = (sample + width / 2).div_euclid(width).clamp(-SIDE, SIDE);
    (from_middle + SIDE) as usize
}

/// The ends of a range in words.
fn name(range: usize, width: i32) -> String {
    let middle = width * (range as i32 - SIDE);
    let (first, last) = (middle - width / 2, middle + width / 2);
    match range {
        0 => format!("up to {last}"),
        _ if range == RANGES - 1 => format!("from {first} on"),
        _ => format!("{first} to {last}"),
    }
}

/// A bar as long as the drawn count, with a mark where the expected one ends. Both are parts of the longest.
fn bar(drawn: f64, expected: f64) -> String {
    let [length, mark] = [drawn, expected].map(|part| (part * COLUMNS).round() as usize);
    let column = |i| match i {
        _ if i == mark => '|',
        _ if i < length => '#',
        _ => ' ',
    };
    (0..length.max(mark + 1)).map(column).collect()
}

/// The exact expected counts of so many samples, up to the rounding of floats.
fn expected(deviation: Deviation, samples: usize) -> [f64; RANGES] {
    let mut weights = [0.0; RANGES];
    for (sample, weight) in weights_of_samples(deviation) {
        weights[range_of(sample, width(deviation))] += weight;
    }
    let all: f64 = weights.iter().sum();
    weights.map(|weight| samples as f64 * weight / all)
}

/// Each sample that can be drawn, with its weight: 512 times the chance that an attempt draws and accepts it, since each sign and
/// each low byte comes with a chance of 1 / 512. A size comes with both signs, but 0 with one alone.
fn weights_of_samples(deviation: Deviation) -> Vec<(i32, f64)> {
    let mut weights = Vec::new();
    for (x, base) in chances_of_base_samples(deviation).into_iter().enumerate() {
        for b in 0..256 {
            let n = (b * (b + 512 * x)) as f64;
            let (size, weight) = ((256 * x + b) as i32, base * (-n / (2.0 * real(deviation).powi(2))).exp());
            weights.push((size, weight));
            if size > 0 {
                weights.push((-size, weight));
            }
        }
    }
    weights
}

/// The chances of the base samples 0 to 10: the steps from one threshold to the next.
fn chances_of_base_samples(deviation: Deviation) -> [f64; 11] {
    let mut ends = [0; 12];
    ends[1..11].copy_from_slice(&thresholds(deviation.cdt()));
    ends[11] = 1 << 124;
    array::from_fn(|x| (ends[x + 1] - ends[x]) as f64 / DRAWS)
}

#[cfg(test)]
mod tests {
    use super::*;

    #[test]
    fn every_sample_has_its_range() {
        let range_of = |sample| super::range_of(sample, 65);
        assert_eq!([-2815, -683, -618, -617, -33].map(range_of), [0, 0, 0, 1, 9]);
        assert_eq!([-32, 0, 32].map(range_of), [10, 10, 10]);
        assert_eq!([33, 617, 618, 683, 2815].map(range_of), [11, 19, 20, 20, 20]);
        let name = |range| super::name(range, 65);
        assert_eq!([0, 1, 10, 19, 20].map(name), ["up to -618", "-617 to -553", "-32 to 32", "553 to 617", "from 618 on"]);
    }

    #[test]
    fn ranges_are_as_wide_as_the_deviation_asks_for() {
        assert_eq!(Deviation::ALL.map(width), [33, 65, 75, 81]);
    }

    #[test]
    fn weights_are_those_of_the_noise() {
        for (deviation, accepted) in Deviation::ALL.into_iter().zip([0.495_522, 0.677_956, 0.709_967, 0.726_290]) {
            let weights = weights_of_samples(deviation);
            assert_eq!(weights.len(), 2 * 2816 - 1);
            let all: f64 = weights.iter().map(|(_, weight)| weight).sum();
            assert!((all / 512.0 - accepted).abs() < 5e-7, "{deviation}: {}", all / 512.0);
            let squares: f64 = weights.iter().map(|(sample, weight)| f64::from(*sample).powi(2) * weight).sum();
            assert!(((squares / all).sqrt() - real(deviation)).abs() < 1e-9, "{deviation}: {}", (squares / all).sqrt());
            let of = |wanted| weights.iter().filter(|(sample, _)| *sample == wanted).map(|(_, weight)| weight).sum::<f64>();
            assert!((of(0) / of(1) - 1.0).abs() < 0.0001, "0 weighs as much as 1, and not twice as much");
        }
    }

    #[test]
    fn expected_counts_add_up() {
        for deviation in Deviation::ALL {
            let counts = expected(deviation, 1024);
            assert!((counts.iter().sum::<f64>() - 1024.0).abs() < 1e-6);
            for range in 0..RANGES {
                assert!((counts[range] - counts[RANGES - 1 - range]).abs() < 1e-9, "both sides are alike");
            }
        }
    }

    #[test]
    fn the_drawn_deviation_stands_beside_the_asked_one() {
        let of = |deviation| Picture::of(deviation, &[-200, 200].repeat(512)).deviation();
        assert_eq!(
            Deviation::ALL.map(of),
            [
                "200.0, where 107 is expected, give or take 2.4",
                "200.0, where 215 is expected, give or take 4.8",
                "200.0, where 250 is expected, give or take 5.5",
                "200.0, where 271 is expected, give or take 6.0",
            ]
        );
    }

    #[test]
    fn bars_have_their_mark_where_the_expected_count_ends() {
        assert_eq!(bar(4.0 / COLUMNS, 2.0 / COLUMNS), "##|#");
        assert_eq!(bar(2.0 / COLUMNS, 4.0 / COLUMNS), "##  |");
        assert_eq!(bar(3.0 / COLUMNS, 3.0 / COLUMNS), "###|");
        assert_eq!(bar(0.0, 0.0), "|");
    }
}
