/* pool PLAN CASE AMOUNTS: pools amounts by unit. Prints the persons of each unit, its pool in cents, and "open" where the pool is not final;
 * then the sum of what is unplaced; or the refusal's number and record. AMOUNTS has 4 bytes for each person of the roster, lowest byte first. */
#include "../lukhveri.h"

#include <inttypes.h>
#include <stdio.h>

/* Files end at 16 KB: more than any accepted plan, case or list takes, so a longer one is refused as the whole file would be. */
static uint8_t plan[16384], roster_case[16384], list[16384], lines[LUKHVERI_LINES_LENGTH], events[LUKHVERI_MOST_EVENTS_LENGTH];
static uint32_t amounts[sizeof list / 4 + 1];

static int read_file(const char *name, uint8_t *to, size_t room, size_t *length) {
    FILE *file = fopen(name, "rb");
    *length = file == NULL ? 0 : fread(to, 1, room, file);
    int failed = file == NULL || ferror(file);
    if (failed) perror(name);
    if (file != NULL) fclose(file);
    return !failed;
}

/* How many amounts a list of so many bytes has. One that is no whole number of amounts is not as long as any roster. */
static size_t read_amounts(size_t length) {
    for (size_t at = 0; at < length / 4; at++) {
        const uint8_t *bytes = list + 4 * at;
        amounts[at] = bytes[0] | (uint32_t)bytes[1] << 8 | (uint32_t)bytes[2] << 16 | (uint32_t)bytes[3] << 24;
    }
    return length % 4 == 0 ? length / 4 : LUKHVERI_PERSONS + 1;
}

static void print_persons(uint64_t block) {
    const char *before = "";
    for (int person = 0; person < LUKHVERI_PERSONS; person++) {
        if ((block >> person & 1) == 0) continue;
        printf("%s%d", before, person);
        before = ",";
    }
}

int main(int count, char **words) {
    size_t plan_length, case_length, list_length;
    uint64_t blocks[LUKHVERI_UNITS], pools[LUKHVERI_UNITS], told[LUKHVERI_POOL_TOLD];
    uint8_t open[LUKHVERI_UNITS];
    if (count != 4) return fputs("usage: pool PLAN CASE AMOUNTS\n", stderr), 2;
    if (!read_file(words[1], plan, sizeof plan, &plan_length)) return 2;
    if (!read_file(words[2], roster_case, sizeof roster_case, &case_length)) return 2;
    if (!read_file(words[3], list, sizeof list, &list_length)) return 2;
    if (lukhveri_pool(plan, plan_length, roster_case, case_length, amounts, read_amounts(list_length), lines, sizeof lines, events,
                      sizeof events, blocks, pools, open, told)) {
        printf("refused %d %d\n", (int)told[LUKHVERI_TOLD_REFUSAL], (int)told[LUKHVERI_TOLD_RECORD]);
        return 1;
    }
    for (size_t unit = 0; unit < told[LUKHVERI_TOLD_UNITS]; unit++) {
        print_persons(blocks[unit]);
        printf(" %" PRIu64 "%s\n", pools[unit], open[unit] ? " open" : "");
    }
    printf("unplaced %" PRIu64 "\n", told[LUKHVERI_TOLD_UNPLACED]);
    return 0;
}
