// The correction behind the start of roll at an angle, by the proved library and by the same tests and the same formulas written plainly, each called through
// the same signature.
use crate::{seconds, Random};
use std::hint::black_box;

extern "C" {
    fn moatburdock_correction_at_angle(angle: f64, position: *mut u8, correction: *mut f64) -> u8;
}

/// Either program, behind the signature that C has.
type Program = unsafe extern "C" fn(f64, *mut u8, *mut f64) -> u8;

const IN_FRONT: u8 = 0;
const BESIDE: u8 = 1;
const BEHIND: u8 = 2;
const ANGLE_OUTSIDE: u8 = 22;

unsafe extern "C" fn plain(angle: f64, position: *mut u8, correction: *mut f64) -> u8 {
    if !(0.0..=180.0).contains(&angle) {
        return ANGLE_OUTSIDE;
    }
    if angle < 90.0 {
        *position = IN_FRONT;
        return 0;
    }
    let (square, cube) = (angle * angle, angle * angle * angle);
    if angle <= 148.4 {
        *position = BESIDE;
        *correction = 51.44 - 1.553 * angle + 0.015147 * square - 0.000047173 * cube;
    } else {
        *position = BEHIND;
        *correction = 339.18 - 2.5802 * angle - 0.0045545 * square + 0.000044193 * cube;
    }
    0
}

/// The answer, the position, and the bits of the correction, which are those of 0 where there is none.
fn found(program: Program, angle: f64) -> (u8, u8, u64) {
    let (mut position, mut correction) = (0, 0.0);
    let answer = unsafe { program(angle, &mut position, &mut correction) };
    (answer, position, correction.to_bits())
}

/// A hundred angles anywhere from one to another.
fn angles_of(from: f64, to: f64) -> Vec<f64> {
    let mut random = Random(207);
    (0..100).map(|_| from + (to - from) * (random.below(1 << 30) as f64 / (1u64 << 30) as f64)).collect()
}

fn all(angles: &[f64], program: Program) {
    for &angle in angles {
        black_box(found(program, black_box(angle)));
    }
}

pub fn time() {
    println!("| angles | the correction at an angle, proved | plain |");
    println!("|---|---|---|");
    for (name, from, to) in [("in front", 0.0, 90.0), ("beside", 90.0, 148.4), ("behind", 148.5, 180.0)] {
        let angles = angles_of(from, to);
        for &angle in &angles {
            assert_eq!(found(moatburdock_correction_at_angle, angle), found(plain, angle));
        }
        let times = seconds(20, [Box::new(|| all(&angles, black_box(moatburdock_correction_at_angle))), Box::new(|| all(&angles, black_box(plain)))]);
        let [proved, plain] = times.map(|t| 1e9 * t / angles.len() as f64);
        println!("| {} | {:.1} ns | {:.1} ns, {:.2} times |", name, proved, plain, plain / proved);
    }
}
