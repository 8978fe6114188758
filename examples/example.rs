// Opens a day, offers two fly-overs of meters with a stated tolerance, asks for the energy of their hours, closes it, with the lowest and the highest Ldn,
// forms a year of such days, holds the tower's log against the fly-overs, opens the next day, with a fly-over at midnight, closes a quiet day, whose level is
// negative, asks for the level at thrusts and for the correction at angles, and counts the mixes of a short campaign that would pass. Built and run by
// examples/run_rust.
#[link(name = "moatburdock", kind = "static")]
extern "C" {
    fn moatburdock_open_day(day: *mut u32, rate: u32, first: u32, last: u32, end: i32, daytime: *const u16, classes: usize, night: *const u16,
        others: usize) -> u8;
    fn moatburdock_end_for_next_day(day: *const u32) -> i32;
    fn moatburdock_offer(day: *mut u32, start: i32, class: u8, wind: u16, wet: bool, background: u32, tolerance: u16, samples: *const u16, count: usize,
        exposure: *mut i32, lmax: *mut u32) -> u8;
    fn moatburdock_hour_energy(day: *const u32, hour: u32, energy: *mut u64);
    fn moatburdock_close_day(day: *const u32, before: u32, after: u32, record: *mut u64, lowest_ldn: *mut i32, highest_ldn: *mut i32, counts: *mut u32,
        highest_by_class: *mut u32) -> u8;
    fn moatburdock_year_mean(records: *const u64, count: usize, level: *mut i32) -> u8;
    fn moatburdock_verdict(class: u8, yearly: i32, sensitive: bool, lmax: u32, finding: *mut u8, margin: *mut i32) -> u8;
    fn moatburdock_pair_movements(movements: *const i32, movement_count: usize, peaks: *const i32, peak_count: usize, tolerance: u32,
        movement_marks: *mut u16, movement_mark_count: usize, peak_marks: *mut u16, peak_mark_count: usize, pair_count: *mut u16) -> u8;
    fn moatburdock_level_at_thrust(thrusts: *const f64, thrust_count: usize, levels: *const f64, level_count: usize, thrust: f64, level: *mut f64) -> u8;
    fn moatburdock_correction_at_angle(angle: f64, position: *mut u8, correction: *mut f64) -> u8;
    fn moatburdock_count_mixes(daytime: *const u16, classes: usize, night: *const u16, others: usize, measured: u32, table: *mut u64, size: usize,
        count: *mut u64) -> u8;
}

/// A refusal, by its number.
#[derive(Debug)]
struct Refused(u8);

fn checked(answer: u8) -> Result<(), Refused> {
    if answer == 0 { Ok(()) } else { Err(Refused(answer)) }
}

/// LAE, Ldn or a mean in hundredths of a decibel; none is below scale.
#[derive(Clone, Copy)]
struct Level(Option<i32>);

impl Level {
    fn from(number: i32) -> Level {
        Level((number != i32::MIN).then_some(number))
    }

    fn number(self) -> i32 {
        self.0.unwrap_or(i32::MIN)
    }
}

impl std::fmt::Display for Level {
    fn fmt(&self, f: &mut std::fmt::Formatter) -> std::fmt::Result {
        match self.0 {
            Some(level) => write!(f, "{:.2} dB", level as f64 / 100.0),
            None => write!(f, "below scale"),
        }
    }
}

/// A day's record has its level in the lower 32 bits, and its method in the upper ones.
fn record_of(level: Level, method: u64) -> u64 {
    method << 32 | level.number() as u32 as u64
}

fn level_of(record: u64) -> Level {
    Level::from(record as u32 as i32)
}

/// The mean of 1 to 366 days.
fn year_mean(records: &[u64]) -> Result<Level, Refused> {
    let mut level = 0;
    checked(unsafe { moatburdock_year_mean(records.as_ptr(), records.len(), &mut level) })?;
    Ok(Level::from(level))
}

/// The margin of a year's level on land of a class; there is none in class IV and below scale.
fn margin(class: u8, yearly: Level) -> Result<Option<i32>, Refused> {
    let (mut finding, mut margin) = (0, 0);
    checked(unsafe { moatburdock_verdict(class, yearly.number(), false, u32::MAX, &mut finding, &mut margin) })?;
    Ok((margin != i32::MAX).then_some(margin))
}

/// The settings of a terminal: samples a second, and the first and the last daytime tick.
#[derive(Clone, Copy)]
struct Settings(u32, u32, u32);

/// What a closing gives: the day's record, the lowest and the highest Ldn within the tolerances of the meters, and the highest Lmax of each class.
struct Closing {
    record: u64,
    lowest: Level,
    highest: Level,
    highest_by_class: [Option<u32>; 16],
}

/// A day, in memory of its own.
struct Day([u32; 320]);

impl Day {
    /// A day whose settings are those of the day before, if there is one: then it goes on where that one ends.
    fn open(settings: Settings, before: Option<&Day>, daytime: &[u16], night: &[u16]) -> Result<Day, Refused> {
        let mut day = [0; 320];
        let Settings(rate, first, last) = settings;
        let end = before.map_or(-600 * rate as i32, Day::end_for_next_day);
        checked(unsafe {
            moatburdock_open_day(day.as_mut_ptr(), rate, first, last, end, daytime.as_ptr(), daytime.len(), night.as_ptr(), night.len())
        })?;
        Ok(Day(day))
    }

    /// The end of the last stretch, in ticks after the next midnight.
    fn end_for_next_day(&self) -> i32 {
        unsafe { moatburdock_end_for_next_day(self.0.as_ptr()) }
    }

    /// LAE and Lmax of a fly-over, recorded by a meter of some tolerance.
    fn offer(&mut self, start: i32, class: u8, background: u32, tolerance: u16, samples: &[u16]) -> Result<(Level, u32), Refused> {
        let (mut exposure, mut lmax) = (0, 0);
        checked(unsafe {
            moatburdock_offer(self.0.as_mut_ptr(), start, class, 30, false, background, tolerance, samples.as_ptr(), samples.len(), &mut exposure, &mut lmax)
        })?;
        Ok((Level::from(exposure), lmax))
    }

    /// The energy of a clock hour; a sample of 0 dB has 10^9.
    fn hour_energy(&self, hour: u32) -> u128 {
        let mut halves = [0; 2];
        unsafe { moatburdock_hour_energy(self.0.as_ptr(), hour, halves.as_mut_ptr()) };
        (halves[1] as u128) << 64 | halves[0] as u128
    }

    fn close(&self) -> Result<Closing, Refused> {
        let (mut record, mut lowest, mut highest, mut counts, mut levels) = (0, 0, 0, [0; 3], [0; 16]);
        checked(unsafe {
            moatburdock_close_day(self.0.as_ptr(), 9400, 9400, &mut record, &mut lowest, &mut highest, counts.as_mut_ptr(), levels.as_mut_ptr())
        })?;
        let highest_by_class = levels.map(|level| (level != u32::MAX).then_some(level));
        Ok(Closing { record, lowest: Level::from(lowest), highest: Level::from(highest), highest_by_class })
    }
}

/// For each movement the peak that it is paired with, by its place from 1.
fn paired(movements: &[i32], peaks: &[i32], tolerance: u32) -> Result<Vec<Option<u16>>, Refused> {
    let (mut movement_marks, mut peak_marks, mut pairs) = (vec![0; movements.len()], vec![0; peaks.len()], 0);
    checked(unsafe {
        moatburdock_pair_movements(movements.as_ptr(), movements.len(), peaks.as_ptr(), peaks.len(), tolerance, movement_marks.as_mut_ptr(),
            movement_marks.len(), peak_marks.as_mut_ptr(), peak_marks.len(), &mut pairs)
    })?;
    Ok(movement_marks.into_iter().map(|mark| (mark != 0).then_some(mark)).collect())
}

/// A day at a gliding field, with forty samples a second and one faint fly-over of a meter of 0.40 dB, so that the lowest Ldn is below scale: its mean alone,
/// and with a day on which nothing flies, which adds nothing and counts as a day.
fn show_quiet_days() -> Result<(), Refused> {
    let mut day = Day::open(Settings(40, 864000, 3167999), None, &[1], &[0])?;
    let (exposure, _) = day.offer(1440000, 0, 0, 40, &[300, 550, 1560, 420, 300])?;
    let Closing { record, lowest, highest, .. } = day.close()?;
    println!("a quiet day: LAE {}, Ldn {}, within the tolerance {} to {}", exposure, level_of(record), lowest, highest);
    let records = [record, record_of(Level(None), 1)];
    for count in [1, 2] {
        let yearly = year_mean(&records[..count])?;
        println!("of {} quiet days: YLdn {}, margin {:?}", count, yearly, margin(1, yearly)?);
    }
    Ok(())
}

/// The level in dB at a thrust in kN, from those measured at several thrusts.
fn level_at(thrusts: &[f64], levels: &[f64], thrust: f64) -> Result<f64, Refused> {
    let mut level = 0.0;
    checked(unsafe { moatburdock_level_at_thrust(thrusts.as_ptr(), thrusts.len(), levels.as_ptr(), levels.len(), thrust, &mut level) })?;
    Ok(level)
}

/// Between two rows, at the last one, behind it, and with a level too few.
fn show_levels() -> Result<(), Refused> {
    let (thrusts, levels) = ([40.0, 60.0, 92.3, 120.0], [60.5, 65.3, 70.1, 76.2]);
    for thrust in [50.0, 120.0] {
        println!("at {} kN: {} dB", thrust, level_at(&thrusts, &levels, thrust)?);
    }
    for (thrust, rows) in [(130.0, 4), (50.0, 3)] {
        if let Err(Refused(number)) = level_at(&thrusts, &levels[..rows], thrust) {
            println!("at {} kN, of 4 thrusts and {} levels: refusal {}", thrust, rows, number);
        }
    }
    Ok(())
}

/// Where an angle lies, seen from the start of roll, with the correction in dB where there is one.
enum Position {
    InFront,
    Beside(f64),
    Behind(f64),
}

/// The position of an angle in degrees.
fn position_at(angle: f64) -> Result<Position, Refused> {
    let (mut position, mut correction) = (0, 0.0);
    checked(unsafe { moatburdock_correction_at_angle(angle, &mut position, &mut correction) })?;
    Ok(match position {
        0 => Position::InFront,
        1 => Position::Beside(correction),
        _ => Position::Behind(correction),
    })
}

/// In front, beside, at the last angle that is beside, behind, above 180 and at no number.
fn show_corrections() -> Result<(), Refused> {
    for angle in [45.0, 120.0, 148.4, 165.0] {
        match position_at(angle)? {
            Position::InFront => println!("at {} degrees: in front, no correction", angle),
            Position::Beside(correction) => println!("at {} degrees: beside, {} dB", angle, correction),
            Position::Behind(correction) => println!("at {} degrees: behind, {} dB", angle, correction),
        }
    }
    for angle in [180.5, f64::NAN] {
        if let Err(Refused(number)) = position_at(angle) {
            println!("at {} degrees: refusal {}", angle, number);
        }
    }
    Ok(())
}

/// How many mixes of so many measured flights would pass on a book.
fn mixes(daytime: &[u16], night: &[u16], measured: u32) -> Result<u64, Refused> {
    let mut table = vec![0; daytime.len() * (measured as usize + 1)];
    let mut count = 0;
    checked(unsafe {
        moatburdock_count_mixes(daytime.as_ptr(), daytime.len(), night.as_ptr(), night.len(), measured, table.as_mut_ptr(), table.len(), &mut count)
    })?;
    Ok(count)
}

fn show_mixes() -> Result<(), Refused> {
    let (daytime, night) = ([12, 5, 3], [2, 4, 0]);
    for measured in [6, 16, 26] {
        println!("{} of 26 flights measured: {} mixes would pass", measured, mixes(&daytime, &night, measured)?);
    }
    if let Err(Refused(number)) = mixes(&daytime, &night, 27) {
        println!("27 of 26 flights: refusal {}", number);
    }
    Ok(())
}

fn main() -> Result<(), Refused> {
    let samples = [6000, 8000, 8000, 8000, 6000];
    // Ten samples a second, daytime from 06:00 to 22:00.
    let settings = Settings(10, 216000, 791999);
    let mut day = Day::open(settings, None, &[1], &[1])?;
    for (start, tolerance) in [(432000, 70), (863997, 110)] {
        let (exposure, lmax) = day.offer(start, 0, 6000, tolerance, &samples)?;
        println!("a fly-over at {}: LAE {}, Lmax {:.2} dB, with a meter of {:.2} dB", start, exposure, lmax as f64 / 100.0, tolerance as f64 / 100.0);
    }
    for hour in [12, 23] {
        let energy = day.hour_energy(hour);
        println!("hour {}: energy {}, an exposure of {:.2} dB", hour, energy, 10.0 * (energy as f64 / 1e9 / 10.0).log10());
    }
    let Closing { record, lowest, highest, highest_by_class } = day.close()?;
    println!("the day: Ldn {} by method {}", level_of(record), record >> 32);
    println!("within the tolerances of the meters: Ldn from {} to {}", lowest, highest);
    for (class, level) in highest_by_class.iter().enumerate().filter_map(|(class, level)| level.map(|level| (class, level))) {
        println!("class {}: highest Lmax {:.2} dB", class, level as f64 / 100.0);
    }
    println!("a year of such days: YLdn {}", year_mean(&[record; 365])?);
    println!("the tower's movements and their peaks: {:?}", paired(&[431990, 432000, 863960], &[432001, 863998], 50)?);
    if let Err(Refused(number)) = paired(&[432000, 431990], &[432001, 863998], 50) {
        println!("movements that are not in order: refusal {}", number);
    }
    // The same fly-over, its start counted from the new midnight, belongs to the day before; one that begins at the end of that day is accepted.
    let mut next_day = Day::open(settings, Some(&day), &[1], &[1])?;
    println!("the next day is opened with the end {}", day.end_for_next_day());
    if let Err(Refused(number)) = next_day.offer(-3, 0, 6000, 110, &samples) {
        println!("the fly-over at midnight again: refusal {}", number);
    }
    println!("a fly-over from that end on: LAE {}", next_day.offer(0, 0, 6000, 110, &samples)?.0);
    if let Err(Refused(number)) = Day::open(Settings(20, 432000, 1728000), None, &[1], &[1]) {
        println!("a last daytime tick behind the day: refusal {}", number);
    }
    if let Err(Refused(number)) = day.offer(432000, 0, 6000, 70, &samples) {
        println!("a second fly-over at noon: refusal {}", number);
    }
    if let Err(Refused(number)) = day.offer(432000, 0, 6000, 301, &samples) {
        println!("one with a meter of 3.01 dB: refusal {}", number);
    }
    show_quiet_days()?;
    show_levels()?;
    show_corrections()?;
    show_mixes()
}
