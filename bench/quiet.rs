// Quiet days, at forty samples a second: with one fly-over so faint that LAE is around 0 and Ldn negative or below scale. Whether the f64 programs give the
// levels that the proved one gives, and the means of years of such days.
use crate::{floating, proved, Ledger, Offer, Random};

/// One to eight samples within 10 dB of an Lmax of 15 to 25 dB.
fn faint(random: &mut Random) -> Offer {
    let lmax = 1500 + random.below(1001) as u16;
    let mut samples = vec![0, lmax];
    samples.extend((0..random.below(8)).map(|_| lmax - random.below(1001) as u16));
    samples.push(0);
    Offer { start: 1728000, class: 0, tolerance: 0, samples }
}

/// LAE and Ldn of each day, and the mean of each year.
fn levels<L: Ledger>(offers: &[Offer]) -> [Vec<Option<i32>>; 3] {
    let (exposures, days): (Vec<_>, Vec<_>) = offers
        .iter()
        .map(|offer| {
            let mut day = L::open(&[1], &[0]);
            (day.offer(offer).unwrap().0, day.close().unwrap()[0])
        })
        .unzip();
    let years = days.chunks(366).map(|year| L::mean(&L::year_of(year))).collect();
    [exposures, days, years]
}

pub fn differ() {
    let mut random = Random(210);
    let offers: Vec<Offer> = (0..366 * 1000).map(|_| faint(&mut random)).collect();
    let exact = levels::<proved::Day<40>>(&offers);
    let others = [levels::<floating::Straightforward<40>>(&offers), levels::<floating::Table<40, true>>(&offers)];
    for (k, name) in ["LAE", "Ldn", "the yearly mean"].iter().enumerate() {
        let count = |holds: &dyn Fn(usize) -> bool| (0..exact[k].len()).filter(|&i| holds(i)).count();
        let negative = count(&|i| exact[k][i].is_some_and(|l| l < 0));
        let below = count(&|i| exact[k][i].is_none());
        let [plain, table] = [0, 1].map(|p| count(&|i| others[p][k][i] != exact[k][i]));
        println!("quiet days, {} of {}: {} negative and {} below scale; the straightforward f64 program gives another one {} times, the one with a table {} times", name, exact[k].len(), negative, below, plain, table);
    }
}
