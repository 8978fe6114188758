// The level at a thrust between two rows, by the proved library and by the same tests and the same formula written plainly, on tables of several lengths.
use crate::{seconds, Random};
use std::hint::black_box;

extern "C" {
    fn moatburdock_level_at_thrust(thrusts: *const f64, thrust_count: usize, levels: *const f64, level_count: usize, thrust: f64, level: *mut f64) -> u8;
}

/// A table, and thrusts inside it.
struct Table {
    thrusts: Vec<f64>,
    levels: Vec<f64>,
    asked: Vec<f64>,
}

impl Table {
    /// Rows with one decimal, and a hundred thrusts anywhere between the first and the last.
    fn of(rows: usize) -> Table {
        let mut random = Random(206);
        let mut tenths = 200;
        let thrusts: Vec<f64> = (0..rows)
            .map(|_| {
                tenths += 1 + random.below(200);
                tenths as f64 / 10.0
            })
            .collect();
        let levels = (0..rows).map(|_| (600 + random.below(500)) as f64 / 10.0).collect();
        let (first, last) = (thrusts[0], thrusts[rows - 1]);
        let asked = (0..100).map(|_| first + (last - first) * (random.below(1 << 30) as f64 / (1u64 << 30) as f64)).collect();
        Table { thrusts, levels, asked }
    }

    fn proved(&self, thrust: f64) -> Option<f64> {
        let mut level = 0.0;
        let answer = unsafe {
            moatburdock_level_at_thrust(self.thrusts.as_ptr(), self.thrusts.len(), self.levels.as_ptr(), self.levels.len(), thrust, &mut level)
        };
        (answer == 0).then_some(level)
    }

    fn plain(&self, thrust: f64) -> Option<f64> {
        let (thrusts, levels) = (&self.thrusts[..], &self.levels[..]);
        let rows = thrusts.len();
        let fit = rows == levels.len()
            && (2..=32).contains(&rows)
            && thrusts.iter().all(|t| (0.0..=1000.0).contains(t))
            && levels.iter().all(|l| (0.0..=140.0).contains(l))
            && thrusts.windows(2).all(|two| two[0] < two[1]);
        if !fit || !(thrusts[0]..=thrusts[rows - 1]).contains(&thrust) {
            return None;
        }
        let lower = thrusts.iter().rposition(|&t| t <= thrust)?;
        if lower + 1 == rows {
            return Some(levels[lower]);
        }
        Some(levels[lower] + (levels[lower + 1] - levels[lower]) * (thrust - thrusts[lower]) / (thrusts[lower + 1] - thrusts[lower]))
    }

    fn all(&self, level: fn(&Table, f64) -> Option<f64>) {
        for &thrust in &self.asked {
            black_box(level(black_box(self), thrust));
        }
    }
}

pub fn time() {
    println!("| rows of the table | the level at a thrust, proved | plain |");
    println!("|---|---|---|");
    for rows in [2, 8, 32] {
        let table = Table::of(rows);
        for &thrust in &table.asked {
            let [one, other] = [table.proved(thrust), table.plain(thrust)].map(|level| level.map(f64::to_bits));
            assert!(one.is_some() && one == other);
        }
        let times = seconds(20, [Box::new(|| table.all(Table::proved)), Box::new(|| table.all(Table::plain))]);
        let [proved, plain] = times.map(|t| 1e9 * t / table.asked.len() as f64);
        println!("| {} | {:.1} ns | {:.1} ns, {:.2} times |", rows, proved, plain, plain / proved);
    }
}
