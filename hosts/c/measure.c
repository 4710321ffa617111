/* measure: how long an answer with many events of kind 9 takes, and how much stack the calls use that answer it, list it, pool amounts, find a
 * circle and import a table as long as a plan can hold, for what lukhveri.h says of time and stack.
 *
 * The plan has stars of Base edges: two arms that are always there, twelve that come and go with twelve open facts. So there are 4,096 worlds, in each
 * of which each star is another component that is left to discretion. */
#define _GNU_SOURCE
#include "../lukhveri.h"

#include <pthread.h>
#include <stdio.h>
#include <string.h>
#include <sys/mman.h>
#include <time.h>

enum { FACTS = 12, STAR = FACTS + 3, MOST_STARS = 4, MOST_EVENTS = MOST_STARS * (4096 + FACTS + 2), STACK = 1 << 20, ROUNDS = 9, PAINT = 0xa5 };

static uint8_t plan[4096], roster_case[16], lines[LUKHVERI_LINES_LENGTH], events[MOST_EVENTS * LUKHVERI_EVENT], text[LUKHVERI_TEXT_LENGTH];
static size_t plan_length;
static uint64_t told[LUKHVERI_TOLD], pool_told[LUKHVERI_POOL_TOLD], blocks[LUKHVERI_UNITS], pools[LUKHVERI_UNITS];
static uint32_t amounts[LUKHVERI_PERSONS];
static uint8_t open[LUKHVERI_UNITS];
static size_t listed;
static uint64_t circle;
static char table[4096];
static size_t table_length;
static uint8_t imported[LUKHVERI_IMPORTED_LENGTH];
static uint64_t made[LUKHVERI_MADE];
static double best;
static uintptr_t top;

static void put(const uint8_t *bytes, size_t length) {
    memcpy(plan + plan_length, bytes, length);
    plan_length += length;
}

static void put_edge(uint8_t left, uint8_t right, uint8_t condition) {
    put((uint8_t[]){4, 15, left, right, condition, 1}, 6);
}

/* Node 0 is always true, node f + 1 is fact f. */
static void make_plan(uint8_t stars) {
    plan_length = 0;
    put((uint8_t[]){1, 1, 1}, 3);
    for (uint8_t fact = 0; fact < FACTS; fact++) put((uint8_t[]){2, 0}, 2);
    put((uint8_t[]){3, 1, 1}, 3);
    for (uint8_t fact = 0; fact < FACTS; fact++) put((uint8_t[]){3, 2, fact}, 3);
    for (uint8_t star = 0; star < stars; star++) {
        uint8_t hub = star * STAR;
        put_edge(hub, hub + 1, 0);
        put_edge(hub, hub + 2, 0);
        for (uint8_t fact = 0; fact < FACTS; fact++) put_edge(hub, hub + 3 + fact, fact + 1);
    }
}

/* A complete roster of the stars' persons; nothing is said of the facts. */
static void make_case(uint8_t stars) {
    uint64_t roster = ((uint64_t)1 << stars * STAR) - 1;
    memcpy(roster_case, (uint8_t[]){1, 127, 1, 1, 1}, 5);
    for (int place = 0; place < 8; place++) roster_case[5 + place] = roster >> 8 * place & 255;
    memcpy(roster_case + 13, (uint8_t[]){0, 0, 16}, 3);
}

static void put_rows(const char *row, int count) {
    for (; count > 0; count--) table_length += sprintf(table + table_length, "%s\r\n", row);
}

/* As many edges and statuses as there may be. */
static void make_table(void) {
    put_rows("kind,left,right,citation", 1);
    put_rows("\"combination\",\"62\",\"63\",\"63\"", 64);
    put_rows("\"status\",\"63\",\"\",\"63\"", 32);
}

static double seconds(void) {
    struct timespec now;
    clock_gettime(CLOCK_THREAD_CPUTIME_ID, &now);
    return now.tv_sec + now.tv_nsec * 1e-9;
}

static void *call(void *nothing) {
    char here;
    top = (uintptr_t)&here;
    best = 1e9;
    for (int round = 0; round < ROUNDS; round++) {
        double start = seconds();
        lukhveri_answer(plan, plan_length, roster_case, sizeof roster_case, lines, sizeof lines, events, sizeof events, told);
        double taken = seconds() - start;
        if (taken < best) best = taken;
    }
    listed = lukhveri_list(plan, plan_length, roster_case, sizeof roster_case, lines, sizeof lines, events, sizeof events, text, sizeof text);
    lukhveri_pool(plan, plan_length, roster_case, sizeof roster_case, amounts, told[LUKHVERI_TOLD_LINES], lines, sizeof lines, events,
                  sizeof events, blocks, pools, open, pool_told);
    circle = lukhveri_circle(plan, plan_length, roster_case, sizeof roster_case, 0);
    lukhveri_import((const uint8_t *)table, table_length, imported, sizeof imported, made);
    return nothing;
}

/* On a stack that was painted before, so that what is left of the paint tells how deep the calls went. */
static int measure(uint8_t stars, uint8_t *stack) {
    pthread_attr_t how;
    pthread_t thread;
    size_t untouched = 0;
    make_plan(stars);
    make_case(stars);
    memset(stack, PAINT, STACK);
    if (pthread_attr_init(&how) || pthread_attr_setstack(&how, stack, STACK) || pthread_create(&thread, &how, call, NULL)) return 0;
    pthread_join(thread, NULL);
    while (untouched < STACK && stack[untouched] == PAINT) untouched++;
    printf("%6d %8d %8d %10.2f %8d\n", (int)told[LUKHVERI_TOLD_REFUSAL], (int)told[LUKHVERI_TOLD_WORLDS], (int)told[LUKHVERI_TOLD_EVENTS],
           best * 1e3, (int)(top - (uintptr_t)(stack + untouched)));
    return told[LUKHVERI_TOLD_REFUSAL] == 0 && pool_told[LUKHVERI_TOLD_REFUSAL] == 0 && listed > 0 && circle != 0 &&
           made[LUKHVERI_MADE_LENGTH] == LUKHVERI_IMPORTED_LENGTH;
}

int main(void) {
    uint8_t *stack = mmap(NULL, STACK, PROT_READ | PROT_WRITE, MAP_PRIVATE | MAP_ANONYMOUS, -1, 0);
    int fine = stack != MAP_FAILED;
    make_table();
    puts("refusal   worlds   events milliseconds  stack");
    for (uint8_t stars = 1; fine && stars <= MOST_STARS; stars *= 2) fine = measure(stars, stack);
    if (!fine) fputs("measure: a call was refused, or there is no thread for it\n", stderr);
    return !fine;
}
