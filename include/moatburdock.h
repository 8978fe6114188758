/* Moatburdock: the ledger of an airport noise terminal, proved.
 *
 * Link with target/staticlib/libmoatburdock.a, which tools/c_library writes. The library keeps nothing between calls, allocates nothing and calls
 * nothing but memcpy and memset: all that it reads and writes is what it is lent here. An offer takes 15 kB of stack, and a step of the reader, which has a
 * room for the longest window of its own, 72 kB.
 *
 * Levels and the tolerances of meters are hundredths of a decibel, wind tenths of m/s. Samples, backgrounds, calibration levels and Lmax are 0 or more. LAE,
 * Ldn and the means have a sign: their scale begins at -5000, that is -50 dB, and whatever is less is below scale. Times are ticks after local midnight,
 * negative before it, and a tick is one sample: a tenth, a twentieth or a fortieth of a second, by the rate with which a day is opened. A fly-over belongs to
 * the day of its peak, whole. In moatburdock_level_at_thrust and moatburdock_correction_at_angle alone there are doubles: levels and corrections in dB, thrusts
 * in kN, angles in degrees.
 *
 * Every function but moatburdock_end_for_next_day, moatburdock_hour_energy and the two of the reader answers 0, or the number of the refusal. A refused call
 * leaves all that it was lent as it was. Of the arguments only this is required: pointers to as many elements as are stated, all of them initialised, and none
 * that is written through overlaps another argument of the call. Any words make a day; words that are all 0 make a day of no class, on which every offer is
 * refused, by 1, 2 or 3, and every closing by 11 or 12, and of which every hour has the energy 0.
 *
 * What each function computes is an equation that is proved for every argument: crates/c_interface/specs/Calls.antt, over the definitions of
 * crates/ledger, offering, closing, mean, land and pairing; of the reader crates/c_reader/specs/Calls.antt, over those of crates/steps; of the level at a
 * thrust, the correction at an angle and the count of mixes crates/c_planning/specs/Calls.antt, over those of crates/thrust, start_of_roll and mixes. Of a
 * pairing it is proved that it is one of the largest. */
#ifndef MOATBURDOCK_H
#define MOATBURDOCK_H

#include <stdbool.h>
#include <stddef.h>
#include <stdint.h>

#ifdef __cplusplus
extern "C" {
#endif

/* The words of a day. Copy them as you like; they hold no pointers. Those that no field uses yet are 0. */
#define MOATBURDOCK_DAY_WORDS 320

/* The most classes of a book, and the levels of a closing by class. */
#define MOATBURDOCK_CLASSES 16

/* Stands for 'below scale', less than -5000, where a level with a sign is given or taken. It is under every level, so that comparisons of levels come out
 * right. Its opposite does not fit in 32 bits: test for it before the absolute value of a level is taken. */
#define MOATBURDOCK_BELOW_SCALE INT32_MIN

/* Stands for no Lmax, and for nothing else. Compare no level with a sign with it: in C a level of -1 would be equal to it. */
#define MOATBURDOCK_NO_LMAX UINT32_MAX

/* Stands for no margin: class IV, or a year below scale. */
#define MOATBURDOCK_NO_MARGIN INT32_MAX

/* The number with a sign that the lower 32 bits of a number are, two's complement. */
#define MOATBURDOCK_SIGNED(number) ((int32_t)(uint32_t)(number))

/* A day's record in one number: its level, or MOATBURDOCK_BELOW_SCALE, in the lower 32 bits, two's complement, and its method, 1 or 2, in the upper ones. In
 * records that were kept from before levels had a sign, those below scale have UINT32_MAX in the lower bits, which is a level of -1 here. */
#define MOATBURDOCK_RECORD(level, method) ((uint64_t)(method) << 32 | (uint32_t)(level))
#define MOATBURDOCK_LEVEL_OF(record) MOATBURDOCK_SIGNED(record)
#define MOATBURDOCK_METHOD_OF(record) ((uint32_t)((record) >> 32))

/* Why a call is refused. */
enum moatburdock_refusal {
    MOATBURDOCK_SAMPLE_COUNT = 1,       /* fewer than 3 samples, or more than 600 seconds of them */
    MOATBURDOCK_OUTSIDE_DAY,            /* the peak, the first highest sample, lies before midnight or after the day's last tick, 86400 times the rate less 1;
                                           or the window begins more than 600 seconds before midnight or ends more than 600 seconds after the day */
    MOATBURDOCK_CLASS_NOT_IN_BOOK,      /* the class is not in the book */
    MOATBURDOCK_LEVEL_TOO_HIGH,         /* a sample, the background or a verdict's Lmax above 14000 */
    MOATBURDOCK_WEATHER,                /* wet, or wind above 100 */
    MOATBURDOCK_BACKGROUND_TOO_NEAR,    /* Lmax less than 1500 above the background */
    MOATBURDOCK_STRETCH_CUT,            /* the first or the last sample of the window is at most 1000 below Lmax, and so in the stretch */
    MOATBURDOCK_STRETCH_OVERLAPS,       /* the stretch begins before the end of the last accepted one, or before that of the day before */
    MOATBURDOCK_FLIGHTS_USED_UP,        /* as many events of that class and period are accepted as the book has flights */
    MOATBURDOCK_BOOK_INVALID,           /* not 1 to 16 classes, lists of unequal length, or more than 2000 flights */
    MOATBURDOCK_CALIBRATION_DRIFT,      /* the calibration levels differ by more than 50 */
    MOATBURDOCK_NO_METHOD,              /* neither method's conditions hold */
    MOATBURDOCK_DAY_COUNT,              /* a wrong number of days, or a place that is not there */
    MOATBURDOCK_RECORD_LEVEL_OUTSIDE,   /* a day's or a year's level above 20000 or under -5000; below scale is not refused */
    MOATBURDOCK_LAND_UNKNOWN,           /* no class 1 to 4, or no such land code */
    MOATBURDOCK_FILE_FAULT,             /* a day file ends early, the count of its settings is not 1 or that of its calibration not 2, or an event has more
                                           than 600 seconds of samples */
    MOATBURDOCK_FILE_TOO_LONG,          /* bytes behind the last event of a day file */
    MOATBURDOCK_SETTINGS_INVALID,       /* a rate that is not 10, 20 or 40, a first daytime tick above the last, or a last one that is not inside the day */
    MOATBURDOCK_LIST_UNFIT,             /* a list of times that falls, is longer than 2000, or has marks of another length */
    MOATBURDOCK_ROWS_UNFIT,             /* fewer than 2 or more than 32 rows, unequal counts of thrusts and levels, thrusts that do not rise strictly within
                                           0 to 1000, or a level outside 0 to 140 */
    MOATBURDOCK_THRUST_OUTSIDE,         /* a thrust that is not between the first and the last of the rows */
    MOATBURDOCK_ANGLE_OUTSIDE,          /* an angle that is not from 0 to 180 */
    MOATBURDOCK_TOLERANCE_TOO_LARGE,    /* the tolerance of an offer above 300; an offer is checked for it straight after MOATBURDOCK_LEVEL_TOO_HIGH, 4 */
    MOATBURDOCK_TOO_MANY_CLASSES,       /* more than 8 classes, where mixes are counted */
    MOATBURDOCK_MEASURED_OUTSIDE,       /* no flight to measure, or more than the book has */
    MOATBURDOCK_TABLE_TOO_SHORT         /* fewer numbers are lent than MOATBURDOCK_MIX_TABLE of the classes and the flights to measure */
};

/* What a verdict names. */
enum moatburdock_finding {
    MOATBURDOCK_WITHIN = 0,
    MOATBURDOCK_OVER_LEVEL,
    MOATBURDOCK_OVER_MAXIMUM,
    MOATBURDOCK_BOTH,
    MOATBURDOCK_NO_LIMIT
};

/* Where an angle lies, seen from the start of roll. */
enum moatburdock_position {
    MOATBURDOCK_IN_FRONT = 0,           /* below 90 degrees: there is no correction */
    MOATBURDOCK_BESIDE,                 /* from 90 to 148.4 degrees */
    MOATBURDOCK_BEHIND                  /* above 148.4, to 180 degrees */
};

/* Opens a day: the settings of its terminal, which are its samples a second (10, 20 or 40) and the first and the last daytime tick, both in; the end of the
 * last stretch of the day before, in ticks after the midnight of the day that is opened; and the book, for each class the flights by day and by night. At ten
 * samples a second 06:00 to 22:00 is from tick 216000 to 791999. Refusals 18, then 10, which leave the day as it was.
 *
 * No stretch is accepted that begins before the end of the day before; any value is taken. Where there is no day before, or none is known of, pass -600 times
 * the rate (-6000, -12000 or -24000). Else pass what moatburdock_end_for_next_day gives of the day before. That counts in ticks of its rate: where the rate has
 * changed, multiply by the new rate and divide by the old one, rounding up, that is to the later tick. */
uint8_t moatburdock_open_day(uint32_t day[MOATBURDOCK_DAY_WORDS], uint32_t rate, uint32_t first_daytime_tick, uint32_t last_daytime_tick,
                             int32_t end_of_day_before, const uint16_t *daytime, size_t daytime_classes, const uint16_t *night, size_t night_classes);

/* Offers a fly-over: a window of A-levels, one a tick, that begins at start. Its peak is in the day; the window may begin before midnight and end after the
 * day. Its stretch runs from the first to the last sample that is at most 1000, that is 10 dB, below Lmax, both in; samples that dip lower in between belong to
 * it and add their energy. Accepted, it is added to the day, and the exposure level LAE of its stretch and Lmax are given. What is accepted has an Lmax of 1500
 * or more, so that LAE is never below scale: at 10, 20 and 40 samples a second it is 500, 198 and -103 at the least.
 *
 * The tolerance is that of the meter, from 0 to 300, that is 3 dB, as its calibration certificate states it; pass 0 where none is stated. Each fly-over has its
 * own. Peak, Lmax, stretch, period, LAE, the energies of the hours and all refusals but 23 are those of the samples as they were recorded, whatever the
 * tolerance. What it moves is the lowest and the highest Ldn of moatburdock_close_day.
 *
 * Refusals 1 to 4, 23, then 5 to 9: the first in this order that holds. */
uint8_t moatburdock_offer(uint32_t day[MOATBURDOCK_DAY_WORDS], int32_t start, uint8_t flight_class, uint16_t wind, bool wet, uint32_t background,
                          uint16_t tolerance, const uint16_t *samples, size_t sample_count, int32_t *exposure, uint32_t *lmax);

/* The end to open the next day with: that of the day's last accepted stretch, in ticks after the next midnight, or -600 times the rate where no fly-over is
 * accepted. Never refused: what is answered is the end itself. The day is read and not changed. With it no stretch of one day overlaps a stretch of the next,
 * so that a fly-over at midnight is counted in one of them alone. Ask once no more offers to the day are to come. */
int32_t moatburdock_end_for_next_day(const uint32_t day[MOATBURDOCK_DAY_WORDS]);

/* Gives the energy of a clock hour, 0 to 23: that of the accepted fly-overs whose peak lies in it, by day and by night alike, without the weight of the
 * night. An hour has 3600 times the rate ticks, counted from midnight, and a fly-over belongs to the hour of its peak, whole. Never refused; an hour above 23
 * has 0. The day is read and not changed.
 *
 * The energy of a fly-over is the sum over the samples of its stretch. That of a sample of c hundredths of a decibel is 10^(9 + c / 1000), of which the first
 * ten digits are kept and the others are 0: 1000000000 at 0 dB, 100000000000000000 at 80 dB. Two halves are written, the lower one first, so that the energy is
 * energy[0] + 2^64 * energy[1]:
 *
 *     (unsigned __int128)energy[1] << 64 | energy[0]                        exactly, where the compiler has such numbers
 *     (double)energy[0] + 18446744073709551616.0 * (double)energy[1]        as a double, rounded
 *
 * The exposure over the hour in dB is 10 log10(energy / 10^9 / rate), and the mean level of the hour is less by 10 log10(3600); where the energy is 0 there is
 * neither. On words that no call wrote the energy is taken modulo 2^128. */
void moatburdock_hour_energy(const uint32_t day[MOATBURDOCK_DAY_WORDS], uint32_t hour, uint64_t energy[2]);

/* Closes a day, with the calibration levels before and after it: gives the day's record (Ldn and its method), the lowest and the highest Ldn within the
 * tolerances of the meters, in counts the events by day, those by night, and the highest Lmax (or MOATBURDOCK_NO_LMAX), and the highest Lmax of each class (or
 * MOATBURDOCK_NO_LMAX; so for every class beyond the book). Ldn is below scale on a day without fly-overs, and where they come to less than -50 dB. The day is
 * read and not changed; more offers may follow. Refusals 11, then 12, which leave the places of all of these as they were.
 *
 * The lowest Ldn is formed as Ldn is, by the same method, of each sample of the accepted stretches less the tolerance of its own fly-over, but not under 0; the
 * highest of each sample plus that tolerance, but not over 14000. Either may be MOATBURDOCK_BELOW_SCALE, which counts as lowest of all. It is proved that every
 * day with the same book, rate, stretches, periods and method whose samples lie in these ranges has its Ldn between the two, by either method; so has the day
 * itself, and where all tolerances are 0 the three are the same. */
uint8_t moatburdock_close_day(const uint32_t day[MOATBURDOCK_DAY_WORDS], uint32_t before, uint32_t after, uint64_t *day_record, int32_t *lowest_ldn,
                              int32_t *highest_ldn, uint32_t counts[3], uint32_t highest_by_class[MOATBURDOCK_CLASSES]);

/* The mean of a week, of exactly 7 records, and of a year, of 1 to 366 (formulas 6-5 and 6-6): a level, or MOATBURDOCK_BELOW_SCALE. A record below scale
 * adds nothing and counts as a day, so that a mean may be below scale though some of its days are not. Refusals 13, then 14. */
uint8_t moatburdock_week_mean(const uint64_t *records, size_t record_count, int32_t *level);
uint8_t moatburdock_year_mean(const uint64_t *records, size_t record_count, int32_t *level);

/* Reads the record at a place of the year, counted from 0, or rewrites it; the other records keep their values. Refusals 13, then 14. */
uint8_t moatburdock_read_record(const uint64_t *records, size_t record_count, size_t place, uint64_t *day_record);
uint8_t moatburdock_rewrite_record(uint64_t *records, size_t record_count, size_t place, uint64_t new_record);

/* The verdict on land of a class, 1 to 4, for a year's level (or MOATBURDOCK_BELOW_SCALE), a sensitive building or none, and the highest Lmax (or
 * MOATBURDOCK_NO_LMAX): what it names, and the margin (or MOATBURDOCK_NO_MARGIN). The margin is limit less level, from -14300 to 11700, and negative where the
 * level is over its limit. Refusals 15, 14, 4 in this order. */
uint8_t moatburdock_verdict(uint8_t land_class, int32_t yearly, bool sensitive, uint32_t lmax, uint8_t *finding, int32_t *margin);

/* The class of a land code, a capital letter and a digit as ASCII. Refusal 15. */
uint8_t moatburdock_land_class(uint8_t letter, uint8_t digit, uint8_t *land_class);

/* Pairs the movements of the tower's log with the peaks of events: two lists of times that do not fall, equal neighbours allowed, and a tolerance, all in
 * ticks, the times negative before midnight. No pair is further apart than the tolerance, no entry is used twice, and no pairing under that rule has more
 * pairs; which of several largest ones is given is left free. Gives their count, and for each entry a mark: its partner's place counted from 1, or 0 where
 * it is unpaired. As many marks are lent as each list has entries. Refusal 19, which leaves the marks and the count as they were. */
uint8_t moatburdock_pair_movements(const int32_t *movements, size_t movement_count, const int32_t *peaks, size_t peak_count, uint32_t tolerance,
                                   uint16_t *movement_marks, size_t movement_mark_count, uint16_t *peak_marks, size_t peak_mark_count, uint16_t *pair_count);

/* The numbers of the table for a count of mixes: a row of measured + 1 for each class. */
#define MOATBURDOCK_MIX_TABLE(classes, measured) ((size_t)(classes) * ((size_t)(measured) + 1))

/* Counts the mixes by which a short campaign of so many measured flights would be closed by method two: the lists of measured counts, one for each class of the
 * book, that add up to measured, have no more of a class than the book has flights of it by day and night together, have one at least of each class with
 * flights, and give each class a share of the measured flights that is at most five points from its share of the book's. Each such list is counted once: that
 * is proved, and that no number on the way passes 64 bits. The table is lent to count in. Afterwards its first MOATBURDOCK_MIX_TABLE(classes, measured) numbers
 * are whatever they are; those behind them stay as they were. Refusals 10, 24, 25, 26 in this order, which leave the table and the count as they were. */
uint8_t moatburdock_count_mixes(const uint16_t *daytime, size_t daytime_classes, const uint16_t *night, size_t night_classes, uint32_t measured,
                                uint64_t *table, size_t table_size, uint64_t *mix_count);

/* The level in dB at a thrust in kN, of a table of rows that were measured, given as their thrusts and their levels (formula B.3). The lower row is the last
 * whose thrust is at most the one asked for, and the level is
 *
 *     lower.level + (next.level - lower.level) * (thrust - lower.thrust) / (next.thrust - lower.thrust)
 *
 * with one rounding an operation in this order, so that its bits are the same on every machine. At a row's own thrust it equals the row's level as a number,
 * -0 and 0 alike, and at the last row it is that level itself, bit for bit. It is always finite, and within 10^-12 dB of the exact value where the thrusts of
 * the two rows are 2^-1000 kN apart or more (crates/thrust_accuracy). Rounding may put it a last place outside the levels of the two rows, and so below 0 or
 * above 140. Refusals 20, then 21; a NaN is outside every range, and -0 counts as 0. Doubles must be rounded to the nearest, and subnormal ones kept, as they
 * are in every C program that does not ask for something else (-ffast-math does). */
uint8_t moatburdock_level_at_thrust(const double *thrusts, size_t thrust_count, const double *levels, size_t level_count, double thrust, double *level);

/* The correction in dB behind the start of roll, at an angle in degrees: gives the position, of enum moatburdock_position, and beside or behind the correction
 * (formulas B.14 and B.15), which is
 *
 *     51.44 - 1.553 * angle + 0.015147 * (angle * angle) - 0.000047173 * (angle * angle * angle)         beside, from 90 to 148.4
 *     339.18 - 2.5802 * angle - 0.0045545 * (angle * angle) + 0.000044193 * (angle * angle * angle)      behind, above 148.4 to 180
 *
 * with one rounding an operation in this order, from the left, and each constant the double nearest to its decimal, 148.4 too, so that its bits are the same
 * on every machine. In front there is no number: the position is given, and the correction is left as it was. A correction that is given is always finite, and
 * within 10^-12 dB of the exact value (crates/start_of_roll_accuracy). The formulas do not meet at the bounds: at 90 the correction is -0.028 dB and not 0, and
 * at 148.4 B.14 gives 0.382 dB, 0.024 dB less than B.15 would. Refusal 22, which leaves the position and the correction as they were; a NaN is no angle from 0
 * to 180, and -0 counts as 0, which is in front. Doubles must be rounded to the nearest here too. */
uint8_t moatburdock_correction_at_angle(double angle, uint8_t *position, double *correction);

/* The reader of day files, from any transport and in whatever pieces the file comes. */

/* The words of a reader: the first MOATBURDOCK_DAY_WORDS are its day, which every function on a day takes. Copy them as you like. Any words make a
 * reader; an opened reader has words that are all 0. */
#define MOATBURDOCK_READER_WORDS 336

/* The bytes of the longest event of the fastest rate: a step on a window of as many never asks for more. */
#define MOATBURDOCK_LONGEST_RECORD 48014

/* The numbers of a step, and the bytes of a line. */
#define MOATBURDOCK_STEP_NUMBERS 8
#define MOATBURDOCK_LINE_BYTES 64

/* What came of a step, with its numbers. The first is 0 or the number of a refusal; those that are not named are 0. LAE, Ldn and the lowest and the highest Ldn
 * are in 32 bits, two's complement: MOATBURDOCK_SIGNED of the number is the level. */
enum moatburdock_came {
    MOATBURDOCK_MORE = 0,               /* the window holds too little, and the file goes on: nothing is used up */
    MOATBURDOCK_STARTED,                /* what stands before the events is read */
    MOATBURDOCK_EVENT,                  /* 0 or refusal 1 to 9 or 23, the event's number from 1; where it is accepted LAE, Lmax */
    MOATBURDOCK_CLOSED,                 /* 0 or refusal 11 or 12; where it is closed Ldn (or MOATBURDOCK_BELOW_SCALE), the method, the events by day, those
                                           by night, the highest Lmax (or MOATBURDOCK_NO_LMAX), the lowest and the highest Ldn (or MOATBURDOCK_BELOW_SCALE).
                                           The highest Lmax of each class comes of moatburdock_close_day on the reader's day, with the calibration levels of
                                           the file */
    MOATBURDOCK_FAULT,                  /* refusal 10, 16, 17 or 18; the reader's day is that of the events before the fault */
    MOATBURDOCK_DONE                    /* the day was closed or a fault met at an earlier step */
};

/* Opens a reader on a file of which nothing is read. */
void moatburdock_open_reader(uint32_t reader[MOATBURDOCK_READER_WORDS]);

/* A step of a reader. The window holds the bytes of the file that are not used up yet, as many as there are at hand; ended says that the file ends with
 * them. Answers what came, and gives how many bytes of the window are used up, the numbers of what came, and the bytes of its line as the day program
 * prints it, with its end: none for MORE, STARTED and DONE. A negative level is '-' and its digits there, and '-' alone is below scale, or no Lmax. The rest of
 * the line stays as it was. However the file is cut, steps up to the first answer of MOATBURDOCK_CLOSED or more give the lines of the whole file. */
uint8_t moatburdock_read_step(uint32_t reader[MOATBURDOCK_READER_WORDS], const uint8_t *window, size_t window_size, bool ended, size_t *used,
                              uint32_t numbers[MOATBURDOCK_STEP_NUMBERS], uint8_t line[MOATBURDOCK_LINE_BYTES], size_t *line_size);

#ifdef __cplusplus
}
#endif

#endif
