// The energy of a clock hour, by the proved library and by the same sum formed plainly from the same words, each called through the same signature.
use crate::{day_of_offers, full_day, seconds, Proved};
use std::hint::black_box;

extern "C" {
    fn moatburdock_hour_energy(day: *const u32, hour: u32, energy: *mut u64);
}

/// Either program, behind the signature that C has.
type Program = unsafe extern "C" fn(*const u32, u32, *mut u64);

/// Where the energies of the hours begin among a day's words, by day and by night: four words an hour (crates/day_words/specs/Words.antt).
const BEGINNINGS: [usize; 2] = [32, 168];

unsafe extern "C" fn plain(day: *const u32, hour: u32, energy: *mut u64) {
    let mut sum = 0u128;
    if hour < 24 {
        for begin in BEGINNINGS {
            let words = std::slice::from_raw_parts(day.add(begin + 4 * hour as usize), 4);
            sum = sum.wrapping_add(words.iter().rev().fold(0, |n, &word| n << 32 | word as u128));
        }
    }
    *energy = sum as u64;
    *energy.add(1) = (sum >> 64) as u64;
}

fn found(program: Program, day: &Proved, hour: u32) -> [u64; 2] {
    let mut energy = [0; 2];
    unsafe { program(day.0.as_ptr(), hour, energy.as_mut_ptr()) };
    energy
}

fn all(day: &Proved, hours: &[u32], program: Program) {
    for &hour in hours {
        black_box(found(program, black_box(day), black_box(hour)));
    }
}

/// The hours of the day of 2000 fly-overs, of which all but the last have some, and hours that there are not.
pub fn time() {
    let day = full_day::<Proved>(&day_of_offers());
    println!("| hours | the energy of an hour, proved | plain |");
    println!("|---|---|---|");
    for (name, first) in [("0 to 23", 0), ("24 to 47", 24)] {
        let hours: Vec<u32> = (first..first + 24).collect();
        for &hour in &hours {
            let energy = found(moatburdock_hour_energy, &day, hour);
            assert_eq!(energy, found(plain, &day, hour));
            assert_eq!(energy != [0; 2], hour < 23);
        }
        let times = seconds(80, [Box::new(|| all(&day, &hours, black_box(moatburdock_hour_energy))), Box::new(|| all(&day, &hours, black_box(plain)))]);
        let [proved, plain] = times.map(|t| 1e9 * t / hours.len() as f64);
        println!("| {} | {:.1} ns | {:.1} ns, {:.2} times |", name, proved, plain, plain / proved);
    }
}
