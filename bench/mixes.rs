// How many mixes pass, by the proved library, by the same sums and differences of rows written plainly, and by a plain convolution, for books of several
// numbers of classes and at several numbers of flights to measure.
use crate::seconds;
use std::hint::black_box;

extern "C" {
    fn moatburdock_count_mixes(daytime: *const u16, daytime_count: usize, night: *const u16, night_count: usize, measured: u32, table: *mut u64,
        table_count: usize, count: *mut u64) -> u8;
}

/// A book, how many flights to measure, and the table that is lent.
struct Campaign {
    daytime: Vec<u16>,
    night: Vec<u16>,
    measured: u32,
    table: Vec<u64>,
}

/// The least and the most measured flights of each class.
type Ranges = [(usize, usize); 8];

/// The numbers that the rows take.
fn table_size(classes: usize, measured: u32) -> usize {
    classes * (measured as usize + 1)
}

impl Campaign {
    /// 2000 flights in classes of one size, a quarter of them by night.
    fn of(classes: usize, measured: u32) -> Campaign {
        let flights = 2000 / classes as u16;
        let night = flights / 4;
        Campaign {
            daytime: vec![flights - night; classes],
            night: vec![night; classes],
            measured,
            table: vec![0; table_size(classes, measured)],
        }
    }

    fn proved(&mut self) -> Option<u64> {
        let mut count = 0;
        let answer = unsafe {
            moatburdock_count_mixes(self.daytime.as_ptr(), self.daytime.len(), self.night.as_ptr(), self.night.len(), self.measured,
                self.table.as_mut_ptr(), self.table.len(), &mut count)
        };
        (answer == 0).then_some(count)
    }

    /// None where the call is refused. A range may be empty.
    fn ranges(&self) -> Option<Ranges> {
        let classes = self.daytime.len();
        let total: u64 = self.daytime.iter().chain(&self.night).map(|&flights| flights as u64).sum();
        let measured = self.measured as u64;
        let fit = (1..=8).contains(&classes) && self.night.len() == classes && total <= 2000;
        if !fit || measured == 0 || total < measured || self.table.len() < table_size(classes, self.measured) {
            return None;
        }
        let mut ranges = [(0, 0); 8];
        for ((range, &by_day), &by_night) in ranges.iter_mut().zip(&self.daytime).zip(&self.night) {
            let flights = by_day as u64 + by_night as u64;
            let (middle, reach) = (20 * flights * measured, total * measured);
            let least = middle.saturating_sub(reach).div_ceil(20 * total).max(flights.min(1));
            let most = ((middle + reach) / (20 * total)).min(flights);
            *range = (least as usize, most as usize);
        }
        Some(ranges)
    }

    /// A row for each class: how many lists of the classes so far add up to each number. It begins as the row before it, and takes in its class.
    fn rows(&mut self, add_class: impl Fn(&mut [u64], usize, usize)) -> Option<u64> {
        let ranges = self.ranges()?;
        let size = self.measured as usize + 1;
        self.table[..size].fill(0);
        self.table[0] = 1;
        for (class, &(least, most)) in ranges[..self.daytime.len()].iter().enumerate() {
            let at = class * size;
            if class > 0 {
                self.table.copy_within(at - size..at, at);
            }
            add_class(&mut self.table[at..at + size], least, most);
        }
        Some(self.table[self.daytime.len() * size - 1])
    }

    /// Each number is the difference of two sums of the row, as in the library.
    fn sums(&mut self) -> Option<u64> {
        self.rows(|row, least, most| {
            let mut sum = 0;
            for number in row.iter_mut() {
                sum += *number;
                *number = sum;
            }
            for at in (0..row.len()).rev() {
                let back = |steps: usize| if steps <= at { row[at - steps] } else { 0 };
                row[at] = back(least) - back(least.max(most + 1));
            }
        })
    }

    /// Each number is added up over all counts of the class.
    fn convolution(&mut self) -> Option<u64> {
        self.rows(|row, least, most| {
            for at in (0..row.len()).rev() {
                row[at] = if least <= most.min(at) { row[at - most.min(at)..=at - least].iter().sum() } else { 0 };
            }
        })
    }
}

pub fn time() {
    println!("| classes, flights to measure of 2000, and mixes | proved | plain, sums and differences | plain convolution | proved, nanoseconds a number of the table |");
    println!("|---|---|---|---|---|");
    for (classes, measured) in [(1, 500), (2, 500), (4, 500), (8, 125), (8, 250), (8, 500), (8, 1000), (8, 2000)] {
        let mut campaigns = [(); 3].map(|_| Campaign::of(classes, measured));
        let [one, other, third] = &mut campaigns;
        let mixes = one.proved();
        assert!(mixes.is_some() && mixes == other.sums() && mixes == third.convolution());
        let numbers = one.table.len();
        let run = |work: fn(&mut Campaign) -> Option<u64>, campaign: &mut Campaign| {
            black_box(work(black_box(campaign)));
        };
        let times = seconds(20, [
            Box::new(|| run(Campaign::proved, one)),
            Box::new(|| run(Campaign::sums, other)),
            Box::new(|| run(Campaign::convolution, third)),
        ]);
        let [proved, sums, convolution] = times.map(|t| 1e6 * t);
        println!("| {}, {}, {} | {:.2} µs | {:.2} µs, {:.2} times | {:.2} µs, {:.2} times | {:.2} |", classes, measured, mixes.unwrap(), proved, sums,
            sums / proved, convolution, convolution / proved, 1e3 * proved / numbers as f64);
    }
}
