// The day of fly-overs by meters with a stated tolerance, beside the same day without one: what the lowest and the highest Ldn cost an offer and a closing. And
// days of meters of different tolerances: whether the f64 programs give the lowest and the highest Ldn that the proved one gives.
use crate::{answers, closing_times, day_of_offers, heading, row, times, Ledger, Ldn, Offer, OnePass, Proved, Random, Straightforward, TwoPasses};

/// 0.70 dB.
const TOLERANCE: u16 = 70;

/// The day of 2000 fly-overs, each by a meter of that tolerance.
pub fn day_of_meters() -> Vec<Offer> {
    day_of_offers().into_iter().map(|offer| Offer { tolerance: TOLERANCE, ..offer }).collect()
}

/// A row: how many times as long each program takes with a tolerance as without.
fn times_as_long(work: &str, with: [f64; 4], without: [f64; 4]) {
    let ratios: Vec<String> = with.iter().zip(&without).map(|(a, b)| format!("{:.2}", a / b)).collect();
    println!("| {}, times as long with the tolerance | {} |", work, ratios.join(" | "));
}

pub fn time() {
    let (with, without) = (day_of_meters(), day_of_offers());
    println!("2000 fly-overs of 600 samples by meters of a tolerance of 0.70 dB; accepted, and Ldn with the lowest and the highest one, of each program: {:?}", answers(&with));
    println!("the same without a tolerance: {:?}", answers(&without));
    println!();
    heading();
    let days = [times(&with), times(&without)];
    let closings = [closing_times(&with), closing_times(&without)];
    row("2000 fly-overs by meters of 0.70 dB offered, and the day closed", days[0]);
    row("the same without a tolerance", days[1]);
    times_as_long("offers and a closing", days[0], days[1]);
    row("a closing of that day, by meters of 0.70 dB", closings[0]);
    row("a closing without a tolerance", closings[1]);
    times_as_long("a closing", closings[0], closings[1]);
}

/// Three fly-overs, one of them by night, each by a meter of its own; one window in four is so loud that some of its samples are cut at 140 dB.
fn day_of_three(random: &mut Random) -> Vec<Offer> {
    [100, 432000, 500000]
        .map(|start| {
            let lmax = if random.below(4) == 0 { 13800 + random.below(201) } else { 2500 + random.below(11000) };
            let mut samples = vec![(lmax - 1500) as u16, lmax as u16];
            samples.extend((0..random.below(40)).map(|_| (lmax - random.below(1001)) as u16));
            samples.push((lmax - 1500) as u16);
            Offer { start, class: 0, tolerance: random.below(301) as u16, samples }
        })
        .into()
}

/// Ldn of a day of two flights by day and one by night, or of four and two, so that both methods take turns.
fn ldn<L: Ledger>(day: usize, offers: &[Offer]) -> Ldn {
    let book: [[u16; 1]; 2] = if day % 2 == 0 { [[2], [1]] } else { [[4], [2]] };
    let mut ledger = L::open(&book[0], &book[1]);
    for offer in offers {
        ledger.offer(offer).unwrap();
    }
    ledger.close().unwrap()
}

pub fn differ() {
    let mut random = Random(211);
    const DAYS: usize = 300_000;
    let (mut differing, mut outside) = ([[0; 3]; 3], 0);
    for day in 0..DAYS {
        let offers = day_of_three(&mut random);
        let exact = ldn::<Proved>(day, &offers);
        outside += !(exact[1] <= exact[0] && exact[0] <= exact[2]) as u32;
        let others = [ldn::<Straightforward>(day, &offers), ldn::<OnePass>(day, &offers), ldn::<TwoPasses>(day, &offers)];
        for (counts, other) in differing.iter_mut().zip(others) {
            for (count, (a, b)) in counts.iter_mut().zip(exact.iter().zip(other)) {
                *count += (*a != b) as u32;
            }
        }
    }
    println!("{} days of meters of different tolerances: Ldn is outside the lowest and the highest one on {}; days on which an f64 program gives another Ldn, lowest or highest one: straightforward {:?}, table with a one-pass peak {:?}, with two passes {:?}", DAYS, outside, differing[0], differing[1], differing[2]);
}
