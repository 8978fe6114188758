// The proved library, linked as a static library.
use crate::{Ldn, Ledger, Offer};

const BELOW_SCALE: i32 = i32::MIN;

// A day as it is lent: MOATBURDOCK_DAY_WORDS of include/moatburdock.h. The library that is linked is named in bench/run.
type Word = u32;
const WORDS: usize = 320;

extern "C" {
    fn moatburdock_open_day(day: *mut Word, rate: u32, first: u32, last: u32, end: i32, daytime: *const u16, classes: usize, night: *const u16,
        others: usize) -> u8;
    fn moatburdock_offer(day: *mut Word, start: i32, class: u8, wind: u16, wet: bool, background: u32, tolerance: u16, samples: *const u16, count: usize,
        exposure: *mut i32, lmax: *mut u32) -> u8;
    fn moatburdock_close_day(day: *const Word, before: u32, after: u32, record: *mut u64, lowest_ldn: *mut i32, highest_ldn: *mut i32, counts: *mut u32,
        highest_by_class: *mut u32) -> u8;
    fn moatburdock_year_mean(records: *const u64, count: usize, level: *mut i32) -> u8;
}

pub struct Day<const RATE: i32>(pub [Word; WORDS]);

fn level(n: i32) -> Option<i32> {
    if n == BELOW_SCALE { None } else { Some(n) }
}

impl<const RATE: i32> Ledger for Day<RATE> {
    type Year = Vec<u64>;

    fn open(daytime: &[u16], night: &[u16]) -> Self {
        let mut day = [0; WORDS];
        let (rate, end) = (RATE as u32, -600 * RATE);
        unsafe {
            moatburdock_open_day(day.as_mut_ptr(), rate, 21600 * rate, 79200 * rate - 1, end, daytime.as_ptr(), daytime.len(), night.as_ptr(), night.len())
        };
        Day(day)
    }

    fn offer(&mut self, offer: &Offer) -> Result<(Option<i32>, u32), u8> {
        let (mut exposure, mut lmax) = (0, 0);
        let (samples, tolerance) = (&offer.samples, offer.tolerance);
        let answer = unsafe {
            moatburdock_offer(self.0.as_mut_ptr(), offer.start, offer.class, 30, false, 0, tolerance, samples.as_ptr(), samples.len(), &mut exposure, &mut lmax)
        };
        if answer == 0 { Ok((level(exposure), lmax)) } else { Err(answer) }
    }

    fn close(&self) -> Result<Ldn, u8> {
        let (mut record, mut lowest, mut highest, mut counts, mut highest_by_class) = (0, 0, 0, [0; 3], [0; 16]);
        let answer = unsafe {
            moatburdock_close_day(self.0.as_ptr(), 9400, 9400, &mut record, &mut lowest, &mut highest, counts.as_mut_ptr(), highest_by_class.as_mut_ptr())
        };
        if answer == 0 { Ok([record as u32 as i32, lowest, highest].map(level)) } else { Err(answer) }
    }

    fn year_of(levels: &[Option<i32>]) -> Vec<u64> {
        levels.iter().map(|l| (1 << 32) + l.unwrap_or(BELOW_SCALE) as u32 as u64).collect()
    }

    fn mean(records: &Vec<u64>) -> Option<i32> {
        let mut mean = 0;
        unsafe { moatburdock_year_mean(records.as_ptr(), records.len(), &mut mean) };
        level(mean)
    }
}
