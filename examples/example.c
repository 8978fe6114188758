/* Opens a day, offers two fly-overs of meters with a stated tolerance, asks for the energy of their hours, closes it, with the lowest and the highest Ldn,
 * forms a year of such days and its verdict, holds the tower's log against the fly-overs, opens the next day, with a fly-over at midnight, closes a quiet day,
 * whose level is negative, asks for the level at thrusts and for the correction at angles, and counts the mixes of a short campaign that would pass. Built and
 * run by examples/run_c. */
#include "moatburdock.h"

#include <inttypes.h>
#include <stdio.h>

static int failed(const char *call, uint8_t answer) {
    if (answer != 0)
        printf("%s is refused: %u\n", call, answer);
    return answer != 0;
}

/* The text of a level that has a sign, in dB. */
struct text {
    char of[16];
};

static struct text text_of(int32_t level) {
    struct text text;
    if (level == MOATBURDOCK_BELOW_SCALE)
        snprintf(text.of, sizeof text.of, "below scale");
    else
        snprintf(text.of, sizeof text.of, "%.2f dB", level / 100.0);
    return text;
}

/* The energy of the clock hours of the two fly-overs, in two halves, and as a double in units of a sample of 0 dB. */
static void energies_of_hours(const uint32_t day[MOATBURDOCK_DAY_WORDS]) {
    const uint32_t asked[] = {12, 23};
    for (int i = 0; i < 2; i++) {
        uint64_t energy[2] = {0};
        moatburdock_hour_energy(day, asked[i], energy);
        const double samples = ((double)energy[0] + 18446744073709551616.0 * (double)energy[1]) / 1e9;
        printf("hour %" PRIu32 ": energy %" PRIu64 " and %" PRIu64 " times 2^64, as of %.0f samples of 0 dB\n", asked[i], energy[0], energy[1], samples);
    }
}

/* The year's level of some days, and the verdict on land of class I with it. */
static int quiet_verdict(const uint64_t *records, size_t count) {
    int32_t yearly = 0, margin = 0;
    uint8_t finding = 0;
    if (failed("the year", moatburdock_year_mean(records, count, &yearly))
        || failed("the verdict", moatburdock_verdict(1, yearly, false, MOATBURDOCK_NO_LMAX, &finding, &margin)))
        return 1;
    printf("of %zu quiet days: YLdn %s, finding %u, ", count, text_of(yearly).of, finding);
    if (margin == MOATBURDOCK_NO_MARGIN)
        printf("no margin\n");
    else
        printf("margin %d hundredths\n", margin);
    return 0;
}

/* A day at a gliding field, with forty samples a second and one faint fly-over of a meter of 0.40 dB, so that the lowest Ldn is below scale: its mean alone,
 * and with a day on which nothing flies, which adds nothing and counts as a day. */
static int quiet_days(void) {
    const uint16_t daytime[] = {1}, night[] = {0}, samples[] = {300, 550, 1560, 420, 300};
    uint32_t day[MOATBURDOCK_DAY_WORDS] = {0}, lmax = 0, counts[3] = {0}, highest_by_class[MOATBURDOCK_CLASSES] = {0};
    int32_t exposure = 0, lowest_ldn = 0, highest_ldn = 0;
    uint64_t records[2] = {0, MOATBURDOCK_RECORD(MOATBURDOCK_BELOW_SCALE, 1)};
    if (failed("opening", moatburdock_open_day(day, 40, 864000, 3167999, -24000, daytime, 1, night, 1))
        || failed("the offer", moatburdock_offer(day, 1440000, 0, 4, false, 0, 40, samples, 5, &exposure, &lmax))
        || failed("closing", moatburdock_close_day(day, 9400, 9400, &records[0], &lowest_ldn, &highest_ldn, counts, highest_by_class)))
        return 1;
    printf("a quiet day: LAE %s, Ldn %s, within the tolerance %s to %s\n", text_of(exposure).of, text_of(MOATBURDOCK_LEVEL_OF(records[0])).of,
           text_of(lowest_ldn).of, text_of(highest_ldn).of);
    return quiet_verdict(records, 1) || quiet_verdict(records, 2);
}

/* The level of an engine at thrusts in kN, from levels in dB that were measured at four of them: between two rows, at the last one and behind it. */
static int levels_at_thrusts(void) {
    const double thrusts[] = {40.0, 60.0, 92.3, 120.0}, levels[] = {60.5, 65.3, 70.1, 76.2}, asked[] = {50.0, 120.0};
    double level = 0.0;
    for (int i = 0; i < 2; i++) {
        if (failed("the level", moatburdock_level_at_thrust(thrusts, 4, levels, 4, asked[i], &level)))
            return 1;
        printf("at %.1f kN: %.17g dB\n", asked[i], level);
    }
    const uint8_t answer = moatburdock_level_at_thrust(thrusts, 4, levels, 4, 130.0, &level);
    printf("at 130.0 kN: refusal %u, the level is left at %.17g dB\n", answer, level);
    return answer != MOATBURDOCK_THRUST_OUTSIDE;
}

static void show_correction(double angle, uint8_t position, double correction) {
    if (position == MOATBURDOCK_IN_FRONT)
        printf("at %.1f degrees: in front, no correction\n", angle);
    else
        printf("at %.1f degrees: %s, %.17g dB\n", angle, position == MOATBURDOCK_BESIDE ? "beside" : "behind", correction);
}

/* The correction for fences behind the runway end, at angles in degrees from the start of roll: in front, beside, at the last angle that is beside, behind,
 * and at an angle that there is not. */
static int corrections_at_angles(void) {
    const double asked[] = {45.0, 120.0, 148.4, 165.0};
    uint8_t position = MOATBURDOCK_IN_FRONT;
    double correction = 0.0;
    for (int i = 0; i < 4; i++) {
        if (failed("the correction", moatburdock_correction_at_angle(asked[i], &position, &correction)))
            return 1;
        show_correction(asked[i], position, correction);
    }
    const uint8_t answer = moatburdock_correction_at_angle(180.5, &position, &correction);
    printf("at 180.5 degrees: refusal %u, position %u and %.17g dB are left\n", answer, position, correction);
    return answer != MOATBURDOCK_ANGLE_OUTSIDE;
}

/* How many mixes of measured flights would pass on a book of 12, 5 and 3 flights by day and 2, 4 and 0 by night. */
static int mixes_of_a_campaign(void) {
    const uint16_t daytime[] = {12, 5, 3}, night[] = {2, 4, 0};
    uint64_t table[MOATBURDOCK_MIX_TABLE(3, 26)] = {0}, count = 0;
    for (uint32_t measured = 6; measured <= 26; measured += 10) {
        if (failed("the count", moatburdock_count_mixes(daytime, 3, night, 3, measured, table, MOATBURDOCK_MIX_TABLE(3, measured), &count)))
            return 1;
        printf("%u of 26 flights measured: %" PRIu64 " mixes would pass\n", measured, count);
    }
    const uint8_t answer = moatburdock_count_mixes(daytime, 3, night, 3, 27, table, MOATBURDOCK_MIX_TABLE(3, 26), &count);
    printf("27 of 26 flights: refusal %u, the count %" PRIu64 " is left\n", answer, count);
    return answer != MOATBURDOCK_MEASURED_OUTSIDE;
}

int main(void) {
    const uint16_t daytime[] = {1, 0}, night[] = {0, 1};
    const uint16_t samples[] = {6000, 8000, 8000, 8000, 6000};
    const int32_t starts[] = {432000, 863997};
    const uint16_t tolerances[] = {70, 110};
    uint32_t day[MOATBURDOCK_DAY_WORDS] = {0};

    /* Ten samples a second, daytime from 06:00 to 22:00; nothing is known of a day before. */
    if (failed("opening", moatburdock_open_day(day, 10, 216000, 791999, -6000, daytime, 2, night, 2)))
        return 1;
    for (uint8_t i = 0; i < 2; i++) {
        int32_t exposure = 0;
        uint32_t lmax = 0;
        if (failed("the offer", moatburdock_offer(day, starts[i], i, 30, false, 6000, tolerances[i], samples, 5, &exposure, &lmax)))
            return 1;
        printf("fly-over %d: LAE %s, Lmax %u.%02u dB, with a meter of %.2f dB\n", i + 1, text_of(exposure).of, lmax / 100, lmax % 100, tolerances[i] / 100.0);
    }

    energies_of_hours(day);

    uint64_t record = 0;
    int32_t lowest_ldn = 0, highest_ldn = 0;
    uint32_t counts[3] = {0}, highest_by_class[MOATBURDOCK_CLASSES] = {0};
    if (failed("closing", moatburdock_close_day(day, 9400, 9400, &record, &lowest_ldn, &highest_ldn, counts, highest_by_class)))
        return 1;
    printf("the day: Ldn %s by method %u, %u event by day, %u by night\n", text_of(MOATBURDOCK_LEVEL_OF(record)).of, MOATBURDOCK_METHOD_OF(record), counts[0],
           counts[1]);
    printf("within the tolerances of the meters: Ldn from %s to %s\n", text_of(lowest_ldn).of, text_of(highest_ldn).of);
    for (int class = 0; class < MOATBURDOCK_CLASSES; class++)
        if (highest_by_class[class] != MOATBURDOCK_NO_LMAX)
            printf("class %d: highest Lmax %u.%02u dB\n", class, highest_by_class[class] / 100, highest_by_class[class] % 100);

    uint64_t year[365];
    for (size_t i = 0; i < 365; i++)
        year[i] = record;
    if (failed("rewriting", moatburdock_rewrite_record(year, 365, 364, MOATBURDOCK_RECORD(6000, 1))))
        return 1;
    int32_t mean = 0;
    if (failed("the year", moatburdock_year_mean(year, 365, &mean)))
        return 1;

    uint8_t land_class = 0, finding = 0;
    int32_t margin = 0;
    if (failed("the code", moatburdock_land_class('R', '1', &land_class))
        || failed("the verdict", moatburdock_verdict(land_class, mean, true, counts[2], &finding, &margin)))
        return 1;
    printf("the year: YLdn %s; class %u, finding %u, margin %d hundredths\n", text_of(mean).of, land_class, finding, margin);

    /* The tower's log against the peaks of the two fly-overs, with five seconds of tolerance. */
    const int32_t movements[] = {431990, 432000, 863960}, peaks[] = {432001, 863998};
    uint16_t movement_marks[3] = {0}, peak_marks[2] = {0}, pairs = 0;
    if (failed("the pairing", moatburdock_pair_movements(movements, 3, peaks, 2, 50, movement_marks, 3, peak_marks, 2, &pairs)))
        return 1;
    printf("the tower's log: %u of 3 movements have a peak of their own\n", pairs);
    for (int i = 0; i < 3; i++) {
        if (movement_marks[i] == 0)
            printf("movement %d: unpaired\n", i + 1);
        else
            printf("movement %d: peak %u\n", i + 1, movement_marks[i]);
    }

    /* The next day is opened with the end of this one. The same fly-over, its start counted from the new midnight, belongs to the day before; one that
     * begins at that end is accepted. */
    uint32_t next_day[MOATBURDOCK_DAY_WORDS] = {0}, lmax = 0;
    int32_t exposure = 0;
    const int32_t end = moatburdock_end_for_next_day(day);
    if (failed("opening the next day", moatburdock_open_day(next_day, 10, 216000, 791999, end, daytime, 2, night, 2)))
        return 1;
    printf("the next day is opened with the end %d\n", end);
    printf("the fly-over at midnight again: refusal %u\n", moatburdock_offer(next_day, -3, 1, 30, false, 6000, 110, samples, 5, &exposure, &lmax));
    if (failed("the offer", moatburdock_offer(next_day, 0, 1, 30, false, 6000, 110, samples, 5, &exposure, &lmax)))
        return 1;
    printf("a fly-over from that end on: LAE %s\n", text_of(exposure).of);

    printf("a day of 30 samples a second: refusal %u\n", moatburdock_open_day(day, 30, 216000, 791999, -18000, daytime, 2, night, 2));
    printf("a second fly-over at noon: refusal %u\n", moatburdock_offer(day, 432000, 0, 30, false, 6000, 70, samples, 5, &exposure, &lmax));
    printf("one with a meter of 3.01 dB: refusal %u\n", moatburdock_offer(day, 432000, 0, 30, false, 6000, 301, samples, 5, &exposure, &lmax));
    return quiet_days() || levels_at_thrusts() || corrections_at_angles() || mixes_of_a_campaign();
}
