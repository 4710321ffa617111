/* import TABLE PLAN: makes the plan of a table of rules, writes it to PLAN and prints its length in bytes; or prints the refusal's number and row.
 * Whatever stands in PLAN is overwritten. */
#include "../lukhveri.h"

#include <inttypes.h>
#include <stdio.h>
#include <string.h>

/* Files end at 16 KB: more than any accepted table takes, so a longer one is refused as the whole file would be. */
static uint8_t table[16384], plan[LUKHVERI_IMPORTED_LENGTH];

static int read_file(const char *name, uint8_t *to, size_t room, size_t *length) {
    FILE *file = fopen(name, "rb");
    *length = file == NULL ? 0 : fread(to, 1, room, file);
    int failed = file == NULL || ferror(file);
    if (failed) perror(name);
    if (file != NULL) fclose(file);
    return !failed;
}

static int write_file(const char *name, const uint8_t *from, size_t length) {
    FILE *file = fopen(name, "wb");
    int failed = file == NULL || fwrite(from, 1, length, file) != length;
    if (file != NULL && fclose(file)) failed = 1;
    if (failed) perror(name);
    return !failed;
}

int main(int count, char **words) {
    size_t table_length;
    uint64_t made[LUKHVERI_MADE];
    if (count != 3) return fputs("usage: import TABLE PLAN\n", stderr), 2;
    if (!strcmp(words[1], words[2])) return fputs("import: TABLE and PLAN are the same file\n", stderr), 2;
    if (!read_file(words[1], table, sizeof table, &table_length)) return 2;
    if (lukhveri_import(table, table_length, plan, sizeof plan, made)) {
        printf("refused %" PRIu64 " %" PRIu64 "\n", made[LUKHVERI_MADE_REFUSAL], made[LUKHVERI_MADE_RECORD]);
        return 1;
    }
    if (!write_file(words[2], plan, made[LUKHVERI_MADE_LENGTH])) return 2;
    printf("%" PRIu64 " bytes\n", made[LUKHVERI_MADE_LENGTH]);
    return 0;
}
