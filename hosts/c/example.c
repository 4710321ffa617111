/* example PLAN CASE: answers a case and prints person, kind, role and block of each line, or the refusal's number and record. */
#include "../lukhveri.h"

#include <stdio.h>

/* Files end at 16 KB: more than any accepted plan or case takes, so a longer one is refused as the whole file would be. */
static uint8_t plan[16384], roster_case[16384], lines[LUKHVERI_LINES_LENGTH], events[LUKHVERI_EVENTS_LENGTH];

static int read_file(const char *name, uint8_t *to, size_t room, size_t *length) {
    FILE *file = fopen(name, "rb");
    *length = file == NULL ? 0 : fread(to, 1, room, file);
    int failed = file == NULL || ferror(file);
    if (failed) perror(name);
    if (file != NULL) fclose(file);
    return !failed;
}

static void print_line(const uint8_t *line) {
    const char *before = "";
    printf("%d %d %d ", line[LUKHVERI_LINE_PERSON], line[LUKHVERI_LINE_KIND], line[LUKHVERI_LINE_ROLE]);
    for (int person = 0; person < LUKHVERI_PERSONS; person++) {
        if ((line[LUKHVERI_LINE_BLOCK + person / 8] >> person % 8 & 1) == 0) continue;
        printf("%s%d", before, person);
        before = ",";
    }
    puts(*before ? "" : "-");
}

int main(int count, char **words) {
    size_t plan_length, case_length;
    uint64_t told[LUKHVERI_TOLD];
    if (count != 3) return fputs("usage: example PLAN CASE\n", stderr), 2;
    if (!read_file(words[1], plan, sizeof plan, &plan_length)) return 2;
    if (!read_file(words[2], roster_case, sizeof roster_case, &case_length)) return 2;
    if (lukhveri_answer(plan, plan_length, roster_case, case_length, lines, sizeof lines, events, sizeof events, told)) {
        printf("refused %d %d\n", (int)told[LUKHVERI_TOLD_REFUSAL], (int)told[LUKHVERI_TOLD_RECORD]);
        return 1;
    }
    for (size_t at = 0; at < told[LUKHVERI_TOLD_LINES]; at++) print_line(lines + at * LUKHVERI_LINE);
    return 0;
}
