// A day of helicopters, windows of two or three humps with dips between them, beside the same windows with their dips filled up to 10 dB below Lmax: both
// days have the same stretches.
use crate::{answers, heading, row, times, Offer, Random};

/// Two or three humps, the middle one in one half of the windows alone; the dips of one window in four fall to less than 1 dB.
fn helicopter(random: &mut Random, start: i32) -> Offer {
    let places: &[i64] = if random.below(2) == 0 { &[160, 440] } else { &[160, 300, 440] };
    let highest = 7500 + random.below(2000) as i64;
    let slope = 20 + random.below(5) as i64;
    let humps: Vec<(i64, i64)> = places.iter().map(|&at| (at, highest - random.below(700) as i64)).collect();
    let mut samples: Vec<u16> = (0..600)
        .map(|i| {
            let level = humps.iter().map(|&(at, top)| top - slope * (i - at).abs()).max().unwrap();
            (level - random.below(50) as i64).max(3000) as u16
        })
        .collect();
    if random.below(4) == 0 {
        for s in dips(&mut samples).1 {
            *s = random.below(100) as u16;
        }
    }
    Offer { start, class: 0, tolerance: 0, samples }
}

/// The lowest level of the stretch but for its dips, and the samples of the dips.
fn dips(samples: &mut [u16]) -> (u16, impl Iterator<Item = &mut u16>) {
    let low = samples.iter().max().unwrap() - 1000;
    let first = samples.iter().position(|&s| s >= low).unwrap();
    let last = samples.iter().rposition(|&s| s >= low).unwrap();
    (low, samples[first..=last].iter_mut().filter(move |s| **s < low))
}

/// A day of 2000 helicopters of 600 samples; their stretches follow each other.
pub fn day_of_helicopters() -> Vec<Offer> {
    let mut random = Random(209);
    (0..2000).map(|i| helicopter(&mut random, 400 * i + 20300)).collect()
}

/// The same day without dips.
pub fn day_without_dips() -> Vec<Offer> {
    let mut offers = day_of_helicopters();
    for offer in &mut offers {
        let (low, dips) = dips(&mut offer.samples);
        dips.for_each(|s| *s = low);
    }
    offers
}

pub fn time() {
    let (with, without) = (day_of_helicopters(), day_without_dips());
    let in_dips: usize = with.iter().zip(&without).map(|(a, b)| a.samples.iter().zip(&b.samples).filter(|(s, t)| s != t).count()).sum();
    println!("2000 helicopters of 600 samples, of which {} samples are in dips; accepted, and Ldn with the lowest and the highest one, of each program: {:?}", in_dips, answers(&with));
    println!("the same with the dips filled up to 10 dB below Lmax: {:?}", answers(&without));
    println!();
    heading();
    row("2000 helicopters offered, and the day closed", times(&with));
    row("the same without dips", times(&without));
}
