// Movements paired with peaks, by the proved library and by the same walk written plainly, on lists of several lengths.
use crate::{seconds, Random};

extern "C" {
    fn moatburdock_pair_movements(movements: *const i32, movement_count: usize, peaks: *const i32, peak_count: usize, tolerance: u32,
        movement_marks: *mut u16, movement_mark_count: usize, peak_marks: *mut u16, peak_mark_count: usize, pair_count: *mut u16) -> u8;
}

const TOLERANCE: u32 = 60;

/// Two rising lists, and a mark for each entry.
struct Lists {
    times: [Vec<i32>; 2],
    marks: [Vec<u16>; 2],
}

impl Lists {
    /// A day with movements and peaks about every 100 ticks at 2000 entries; some have no partner, some several in reach.
    fn of(entries: usize) -> Lists {
        let mut random = Random(203);
        let times = [(); 2].map(|_| {
            let mut times: Vec<i32> = (0..entries).map(|_| random.below(100 * entries as u64) as i32).collect();
            times.sort_unstable();
            times
        });
        Lists { times, marks: [vec![0; entries], vec![0; entries]] }
    }

    fn proved(&mut self) -> Option<u16> {
        let ([movements, peaks], [movement_marks, peak_marks]) = (&self.times, &mut self.marks);
        let mut pairs = 0;
        let answer = unsafe {
            moatburdock_pair_movements(movements.as_ptr(), movements.len(), peaks.as_ptr(), peaks.len(), TOLERANCE, movement_marks.as_mut_ptr(),
                movement_marks.len(), peak_marks.as_mut_ptr(), peak_marks.len(), &mut pairs)
        };
        (answer == 0).then_some(pairs)
    }

    fn plain(&mut self) -> Option<u16> {
        let ([movements, peaks], [movement_marks, peak_marks]) = (&self.times, &mut self.marks);
        let fit = |times: &[i32], marks: &[u16]| times.len() <= 2000 && marks.len() == times.len() && times.windows(2).all(|two| two[0] <= two[1]);
        if !fit(movements, movement_marks) || !fit(peaks, peak_marks) {
            return None;
        }
        movement_marks.fill(0);
        peak_marks.fill(0);
        let (mut i, mut j, mut pairs) = (0, 0, 0);
        while i < movements.len() && j < peaks.len() {
            if movements[i].abs_diff(peaks[j]) <= TOLERANCE {
                movement_marks[i] = j as u16 + 1;
                peak_marks[j] = i as u16 + 1;
                (i, j, pairs) = (i + 1, j + 1, pairs + 1);
            } else if movements[i] < peaks[j] {
                i += 1;
            } else {
                j += 1;
            }
        }
        Some(pairs)
    }
}

pub fn time() {
    println!("| entries of each list, and pairs | proved | plain | proved, nanoseconds an entry |");
    println!("|---|---|---|---|");
    for entries in [250, 500, 1000, 2000] {
        let (mut one, mut other) = (Lists::of(entries), Lists::of(entries));
        let pairs = one.proved();
        assert!(pairs.is_some() && pairs == other.plain());
        let run = |work: fn(&mut Lists) -> Option<u16>, lists: &mut Lists| {
            std::hint::black_box(work(std::hint::black_box(lists)));
        };
        let times = seconds(50, [Box::new(|| run(Lists::proved, &mut one)), Box::new(|| run(Lists::plain, &mut other))]);
        let [proved, plain] = times.map(|t| 1e6 * t);
        println!("| {}, {} | {:.2} µs | {:.2} µs, {:.2} times | {:.2} |", entries, pairs.unwrap(), proved, plain, plain / proved, 1e3 * proved / entries as f64 / 2.0);
    }
}
