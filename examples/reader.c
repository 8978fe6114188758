/* Reads a day file in odd pieces, as a slow transport delivers it, and prints the line of each event and of the day; then on standard error how many events
 * there are, the lowest and the highest LAE, Ldn, and the lowest and the highest Ldn within the tolerances of the meters, which are in no line. Built and run
 * by examples/run_c. */
#include "moatburdock.h"

#include <stdio.h>
#include <string.h>

/* Pieces of these sizes come one after the other. */
static const size_t pieces[] = {1, 3, 1021, 7, 389, 2};

static void show_level(const char *name, int32_t level) {
    if (level == MOATBURDOCK_BELOW_SCALE)
        fprintf(stderr, ", %s below scale", name);
    else
        fprintf(stderr, ", %s %.2f dB", name, level / 100.0);
}

int main(int argc, char **argv) {
    const char *name = argc > 1 ? argv[1] : "samples/example.day";
    FILE *file = fopen(name, "rb");
    if (file == NULL) {
        perror(name);
        return 1;
    }

    uint32_t reader[MOATBURDOCK_READER_WORDS];
    uint8_t held[MOATBURDOCK_LONGEST_RECORD];
    size_t count = 0, turn = 0;
    bool ended = false;
    unsigned events = 0, accepted = 0;
    int32_t lowest = INT32_MAX, highest = MOATBURDOCK_BELOW_SCALE;
    int32_t ldn = MOATBURDOCK_BELOW_SCALE, lowest_ldn = MOATBURDOCK_BELOW_SCALE, highest_ldn = MOATBURDOCK_BELOW_SCALE;
    bool closed = false;
    uint8_t came;

    moatburdock_open_reader(reader);
    do {
        size_t used = 0, line_size = 0;
        uint32_t numbers[MOATBURDOCK_STEP_NUMBERS] = {0};
        uint8_t line[MOATBURDOCK_LINE_BYTES] = {0};

        came = moatburdock_read_step(reader, held, count, ended, &used, numbers, line, &line_size);
        fwrite(line, 1, line_size, stdout);
        if (came == MOATBURDOCK_EVENT) {
            events++;
            if (numbers[0] == 0) {
                int32_t exposure = MOATBURDOCK_SIGNED(numbers[2]);
                accepted++;
                lowest = exposure < lowest ? exposure : lowest;
                highest = exposure > highest ? exposure : highest;
            }
        }
        if (came == MOATBURDOCK_CLOSED && numbers[0] == 0) {
            closed = true;
            ldn = MOATBURDOCK_SIGNED(numbers[1]);
            lowest_ldn = MOATBURDOCK_SIGNED(numbers[6]);
            highest_ldn = MOATBURDOCK_SIGNED(numbers[7]);
        }

        count -= used;
        memmove(held, held + used, count);
        if (came == MOATBURDOCK_MORE) {
            size_t piece = pieces[turn++ % (sizeof pieces / sizeof pieces[0])];
            size_t room = sizeof held - count;
            size_t wanted = piece < room ? piece : room;
            size_t got = fread(held + count, 1, wanted, file);
            ended = got < wanted;
            count += got;
        }
    } while (came < MOATBURDOCK_CLOSED);

    fprintf(stderr, "%s: %u events, %u accepted", name, events, accepted);
    if (accepted > 0) {
        show_level("lowest LAE", lowest);
        show_level("highest LAE", highest);
    }
    if (closed) {
        show_level("Ldn", ldn);
        show_level("lowest Ldn", lowest_ldn);
        show_level("highest Ldn", highest_ldn);
    }
    fprintf(stderr, "\n");
    fclose(file);
    return 0;
}
