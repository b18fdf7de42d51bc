/* Calls each of the engine's functions and prints what it answers. The argument
 * is the folder of the example files. */
#include "pilzdamo.h"

#include <stdio.h>
#include <stdlib.h>
#include <string.h>

/* A file of the examples, and its length. */
typedef struct {
    uint8_t bytes[PILZDAMO_ROOM];
    size_t len;
} clinic;

static clinic example(const char *folder, const char *name) {
    clinic file;
    char path[4096];
    FILE *stream;
    snprintf(path, sizeof path, "%s/%s", folder, name);
    stream = fopen(path, "rb");
    if (stream == NULL) {
        perror(path);
        exit(1);
    }
    file.len = fread(file.bytes, 1, sizeof file.bytes, stream);
    fclose(stream);
    return file;
}

static void print(const char *call, pilzdamo_verdict verdict) {
    if (verdict.number == 0) {
        printf("%s: clean\n", call);
    } else {
        printf("%s: refused %d %d\n", call, verdict.number, verdict.place);
    }
}

/* Word `at` of a file or a state. */
static uint16_t word_at(const uint8_t *bytes, size_t at) {
    return (uint16_t)(bytes[2 * at] | bytes[2 * at + 1] << 8);
}

static void print_placed(const char *call, pilzdamo_placed placed) {
    printf("%s: refusal %d %d, %d bytes, on steps: %d\n", call, placed.number,
           placed.place, placed.length, placed.on_steps);
}

/* The booking is placed, and can't be placed again. The bytes past it stay. */
static void booking(const char *folder) {
    clinic file = example(folder, "booking.clinic");
    uint8_t out[PILZDAMO_ROOM], other[PILZDAMO_ROOM];
    pilzdamo_placed placed;
    size_t at;
    memset(out, 0xab, sizeof out);
    print("read the booking", pilzdamo_read(file.bytes, file.len));
    print("check it", pilzdamo_check(file.bytes, file.len));
    print_placed("measure it", pilzdamo_measure(file.bytes, file.len));
    placed = pilzdamo_place(file.bytes, file.len, out, sizeof out);
    print_placed("place it", placed);
    printf("its nodes:");
    for (at = 32; 2 * at < placed.length; at++) {
        printf(" %d", word_at(out, at));
    }
    printf("\nbehind it: %x\n", out[placed.length]);
    print("check what is placed", pilzdamo_check(out, placed.length));
    print_placed("place it again",
                 pilzdamo_place(out, placed.length, other, sizeof other));
    print_placed("place it in just enough",
                 pilzdamo_place(file.bytes, file.len, other, PILZDAMO_ROOM_1));
    print_placed("place it in less",
                 pilzdamo_place(file.bytes, file.len, other, PILZDAMO_ROOM_1 - 1));
}

/* The head nurse's grants copied by hand, and by her junior. */
static void head_nurse(const char *folder) {
    clinic copied = example(folder, "head-nurse/copied.clinic");
    clinic juniors = example(folder, "head-nurse/juniors.clinic");
    clinic wrong = example(folder, "refused/21-junior.clinic");
    uint8_t out[PILZDAMO_ROOM];
    pilzdamo_placed placed;
    print_placed("copied grants",
                 pilzdamo_place(copied.bytes, copied.len, out, sizeof out));
    placed = pilzdamo_place(juniors.bytes, juniors.len, out, sizeof out);
    print_placed("a junior", placed);
    print("check it", pilzdamo_check(out, placed.length));
    print_placed("a junior in less",
                 pilzdamo_place(juniors.bytes, juniors.len, out, PILZDAMO_ROOM - 1));
    print("a junior that is no lower", pilzdamo_read(wrong.bytes, wrong.len));
}

/* Admissions, role 1, has hours; the night desk's role 2 has none. */
static void hours(const char *folder) {
    static const uint16_t monday[] = {1, 7 * 60, 15 * 60}, no_role[] = {3, 0, 1};
    const uint16_t noon = 12 * 60, evening = 20 * 60;
    clinic by_day = example(folder, "hours/by-day.clinic");
    clinic desk = example(folder, "hours/desk.clinic");
    uint8_t out[PILZDAMO_ROOM];
    print("noon", pilzdamo_check_at(by_day.bytes, by_day.len, monday, 3, noon));
    print("evening", pilzdamo_check_at(by_day.bytes, by_day.len, monday, 3, evening));
    print("no such role", pilzdamo_check_at(by_day.bytes, by_day.len, no_role, 3, noon));
    print("no such minute",
          pilzdamo_check_at(by_day.bytes, by_day.len, monday, 3, PILZDAMO_WEEK));
    print_placed("place for noon", pilzdamo_place_at(desk.bytes, desk.len, monday, 3, noon,
                                                     out, sizeof out));
    printf("role: %d\n", word_at(out, 33));
    print_placed("place for the evening",
                 pilzdamo_place_at(desk.bytes, desk.len, monday, 3, evening, out,
                                   sizeof out));
    printf("role: %d\n", word_at(out, 33));
    print_placed("measure for noon",
                 pilzdamo_measure_at(desk.bytes, desk.len, monday, 3, noon));
    print_placed("measure part of a row",
                 pilzdamo_measure_at(desk.bytes, desk.len, monday, 2, noon));
    print_placed("part of a row", pilzdamo_place_at(desk.bytes, desk.len, monday, 2, noon,
                                                    out, sizeof out));
}

/* What a run wrote. */
static void print_state(const uint8_t *state) {
    size_t made = word_at(state, 3), i;
    printf("choices done: %d, refusal: %d\n", word_at(state, 0), word_at(state, 1));
    for (i = 0; i < word_at(state, 2); i++) {
        size_t at = 4 + 2 * made + 12 * i;
        printf("thread %d: user %d, node %d, mask %d, roles %d, first variable %d\n",
               (int)i + 1, word_at(state, at), word_at(state, at + 1),
               word_at(state, at + 2), word_at(state, at + 3), word_at(state, at + 4));
    }
}

/* The kinds that threads wait on, by the words beside a lent list. */
static void print_waiting(const char *call, const uint16_t *beside) {
    uint16_t kind;
    printf("%s:", call);
    for (kind = 1; kind <= PILZDAMO_TOTALS; kind++) {
        uint16_t total = pilzdamo_total(beside, PILZDAMO_BESIDE, kind);
        if (total != 0) {
            printf(" %d on kind %d", total, kind);
        }
    }
    printf("\n");
}

static void print_totals(const char *call, pilzdamo_kind_totals told) {
    size_t kind;
    printf("%s: refusal %d %d, totals", call, told.number, told.place);
    for (kind = 1; kind <= PILZDAMO_TOTALS; kind++) {
        printf(" %d", told.totals[kind - 1]);
    }
    printf("\n");
}

/* Both schedulers read bed 4, in a run and choice by choice. */
static void both_read(const char *folder) {
    static const uint16_t choices[] = {3, 0, 4, 0, 5, 0, 6, 0, 3, 4, 1, 0,
                                       4, 1, 1, 0, 4, 5, 2, 0, 5, 2, 2, 0};
    const size_t words = sizeof choices / sizeof *choices;
    static pilzdamo_thread threads[PILZDAMO_RECORDS];
    static uint16_t beside[PILZDAMO_BESIDE];
    uint8_t out[PILZDAMO_RUN_ROOM];
    clinic cut = example(folder, "spring/cut.clinic");
    pilzdamo_ready_pair pair;
    size_t i;

    print("run", pilzdamo_run(cut.bytes, cut.len, choices, words, out, sizeof out));
    print_state(out);
    pair = pilzdamo_ready(cut.bytes, cut.len, choices, 8);
    printf("ready after 4 choices: refusal %d %d, %d sends to %d\n", pair.number,
           pair.place, pair.sender, pair.receiver);

    /* The lists may hold anything before they start. */
    memset(threads, 0xab, sizeof threads);
    memset(beside, 0xab, sizeof beside);
    print("start in too little",
          pilzdamo_start(cut.bytes, cut.len, threads, PILZDAMO_RECORDS, beside,
                         PILZDAMO_BESIDE - 1));
    print("start", pilzdamo_start(cut.bytes, cut.len, threads, PILZDAMO_RECORDS, beside,
                                  PILZDAMO_BESIDE));
    printf("started: %d threads, %d made channels\n", beside[0], beside[1]);
    for (i = 0; i < beside[0]; i++) {
        printf("thread %d: user %d, node %d, mask %d, first and last variable %d %d\n",
               (int)i + 1, threads[i].user, threads[i].node, threads[i].mask,
               threads[i].vars[0], threads[i].vars[7]);
    }
    printf("behind them: %x %x %x\n", threads[beside[0]].user, beside[2],
           beside[PILZDAMO_BESIDE - PILZDAMO_TOTALS - 1]);
    print_waiting("waiting at the start", beside);
    for (i = 0; i < words; i += 2) {
        pilzdamo_verdict verdict =
            pilzdamo_choose(cut.bytes, cut.len, threads, PILZDAMO_RECORDS, beside,
                            PILZDAMO_BESIDE, choices[i], choices[i + 1]);
        if (verdict.number != 0) {
            print("choose", verdict);
        }
    }
    printf("chosen: %d threads, nodes %d and %d, first variables %d and %d\n", beside[0],
           threads[0].node, threads[1].node, threads[0].vars[0], threads[1].vars[0]);
    print_waiting("waiting", beside);
    print("choose no thread",
          pilzdamo_choose(cut.bytes, cut.len, threads, PILZDAMO_RECORDS, beside,
                          PILZDAMO_BESIDE, 7, 0));
    print("lend too little",
          pilzdamo_choose(cut.bytes, cut.len, threads, PILZDAMO_RECORDS - 1, beside,
                          PILZDAMO_BESIDE, 1, 0));
    print("lend a word too little",
          pilzdamo_choose(cut.bytes, cut.len, threads, PILZDAMO_RECORDS, beside,
                          PILZDAMO_BESIDE - 1, 1, 0));
    beside[PILZDAMO_BESIDE - 1]++;
    print("lend a total too many",
          pilzdamo_choose(cut.bytes, cut.len, threads, PILZDAMO_RECORDS, beside,
                          PILZDAMO_BESIDE, 1, 0));
    printf("total of kind 32: %d, of kinds 0 and 33: %d %d, of a word less: %d\n",
           pilzdamo_total(beside, PILZDAMO_BESIDE, 32),
           pilzdamo_total(beside, PILZDAMO_BESIDE, 0),
           pilzdamo_total(beside, PILZDAMO_BESIDE, 33),
           pilzdamo_total(beside, PILZDAMO_BESIDE - 1, 32));
}

/* Who is waiting on what: before the run, in the midst of it, and where it stops. */
static void waiting(const char *folder) {
    static const uint16_t choices[] = {3, 0, 4, 0, 5, 0, 6, 0, 1, 0, 2, 0, 9, 0};
    clinic cut = example(folder, "spring/cut.clinic");
    print_totals("at the start", pilzdamo_totals(cut.bytes, cut.len, choices, 0));
    print_totals("after six", pilzdamo_totals(cut.bytes, cut.len, choices, 12));
    print_totals("where it stops", pilzdamo_totals(cut.bytes, cut.len, choices, 14));
    print_totals("half a choice", pilzdamo_totals(cut.bytes, cut.len, choices, 3));
    print_totals("no file", pilzdamo_totals(cut.bytes, 1, choices, 2));
}

/* The rounds of two bookings and the desk that takes them, up to one that is empty. */
static void dispatch(const char *folder) {
    static uint16_t choices[2 * (PILZDAMO_BEFORE_ROUND + 1)];
    size_t words = 0, i;
    uint8_t placed[PILZDAMO_ROOM], out[PILZDAMO_RUN_ROOM];
    clinic file = example(folder, "desks.clinic");
    size_t length =
        pilzdamo_place(file.bytes, file.len, placed, sizeof placed).length;
    pilzdamo_round_choices round;
    memset(out, 0xab, sizeof out);
    do {
        round = pilzdamo_round(placed, length, choices, words, out, sizeof out);
        printf("round: refusal %d %d, %d bytes, choices", round.number, round.place,
               round.length);
        for (i = 0; i < PILZDAMO_ROUND_WORDS && round.words[i] != 0; i += 2) {
            printf(" %d,%d", round.words[i], round.words[i + 1]);
            choices[words++] = round.words[i];
            choices[words++] = round.words[i + 1];
        }
        printf("; choices done: %d\n", word_at(out, 0));
    } while (i > 0);
    printf("last word: %d\n", round.words[PILZDAMO_ROUND_WORDS - 1]);
    /* The sixth choice is refused: there is no thread 4. */
    choices[10] = 4;
    round = pilzdamo_round(placed, length, choices, words, out, sizeof out);
    printf("a list that stops: refusal %d %d, %d bytes, first word %d\n", round.number,
           round.place, round.length, round.words[0]);
    print_state(out);
    for (i = 0; i < 2; i++) {
        words = 2 * (PILZDAMO_BEFORE_ROUND + i);
        round = pilzdamo_round(placed, length, choices, words, out, sizeof out);
        printf("%d choices: refusal %d %d, %d bytes\n", (int)words / 2, round.number,
               round.place, round.length);
    }
}

static void print_written(const char *call, pilzdamo_written written) {
    printf("%s: refusal %d %d, %d bytes\n", call, written.number, written.place,
           written.length);
}

static void print_seats(const char *call, pilzdamo_role_seats told) {
    int role, at;
    printf("%s: refusal %d %d, waited %d, last %d\n", call, told.number, told.place,
           told.waited, told.last);
    for (role = 1; role <= PILZDAMO_ROLES; role++) {
        if (told.taken[role - 1] == 0 && told.waiting[role - 1] == 0) {
            continue;
        }
        printf("role %d: taken %d, line", role, told.taken[role - 1]);
        for (at = 0; at < told.waiting[role - 1]; at++) {
            printf(" %d", told.line[PILZDAMO_SESSIONS * (role - 1) + at]);
        }
        printf("\n");
    }
    printf("waiting on kind 1: %d\n", told.totals[0]);
}

/* One seat in role 1, for which both schedulers ask. The bytes past the state stay. */
static void seats(const char *folder) {
    static const uint16_t table[] = {1, 0, 0, 0};
    static const uint16_t choices[] = {3, 0, 1, 0, 2, 0, 2, 0, 9, 0};
    uint8_t out[PILZDAMO_RUN_ROOM];
    clinic cut = example(folder, "spring/cut.clinic");
    clinic start = example(folder, "refused/26-start.clinic");
    pilzdamo_written written;
    pilzdamo_round_choices round;
    memset(out, 0xab, sizeof out);
    written = pilzdamo_run_seated(cut.bytes, cut.len, choices, 8, table, 3, out, sizeof out);
    print_written("with seats", written);
    print_state(out);
    printf("behind it: %x\n", out[written.length]);
    print_seats("seats", pilzdamo_seats(cut.bytes, cut.len, choices, 8, table, 3));
    print_seats("where it stops", pilzdamo_seats(cut.bytes, cut.len, choices, 10, table, 3));
    print_written("a list that stops", pilzdamo_run_seated(cut.bytes, cut.len, choices, 10,
                                                           table, 3, out, sizeof out));
    print_written("too many seats", pilzdamo_run_seated(cut.bytes, cut.len, choices, 8, table,
                                                        4, out, sizeof out));
    print_written("two start", pilzdamo_run_seated(start.bytes, start.len, choices, 0, table,
                                                   1, out, sizeof out));
    round = pilzdamo_round_seated(cut.bytes, cut.len, choices, 2, table, 3, out, sizeof out);
    printf("round: refusal %d %d, %d bytes, choices %d,%d %d,%d\n", round.number, round.place,
           round.length, round.words[0], round.words[1], round.words[2], round.words[3]);
}

/* Two clinics in one file, and such as can't be. The bytes past it stay. */
static void house(const char *folder) {
    clinic north = example(folder, "house/north.clinic");
    clinic south = example(folder, "house/south.clinic");
    clinic other = example(folder, "refused/25-tables.clinic");
    clinic kinds = example(folder, "refused/10-kinds.clinic");
    clinic second = example(folder, "head-nurse/juniors.clinic");
    clinic longer = example(folder, "refused/16-too-long.clinic");
    uint8_t out[PILZDAMO_ROOM_1];
    pilzdamo_written written;
    size_t at;
    memset(out, 0xab, sizeof out);
    written = pilzdamo_merge(north.bytes, north.len, south.bytes, south.len, out,
                             sizeof out);
    print_written("merge", written);
    printf("its counts:");
    for (at = 1; at <= 6; at++) {
        printf(" %d", word_at(out, at));
    }
    printf("\nbehind it: %x\n", out[written.length]);
    print("read it", pilzdamo_read(out, written.length));
    print_placed("measure it", pilzdamo_measure(out, written.length));
    print_written("other tables", pilzdamo_merge(north.bytes, north.len, other.bytes,
                                                 other.len, out, sizeof out));
    print_written("too many nodes", pilzdamo_merge(longer.bytes, longer.len, longer.bytes,
                                                   longer.len, out, sizeof out));
    print_written("the first's own", pilzdamo_merge(kinds.bytes, kinds.len, second.bytes,
                                                    second.len, out, sizeof out));
    print_written("the second's own", pilzdamo_merge(north.bytes, north.len, second.bytes,
                                                     second.len, out, sizeof out));
    print_written("in less", pilzdamo_merge(north.bytes, north.len, south.bytes, south.len,
                                            out, sizeof out - 1));
}

/* A file by column and by row again. */
static void turns(const char *folder) {
    clinic rows = example(folder, "head-nurse/juniors.clinic");
    uint8_t columns[PILZDAMO_ROOM], out[PILZDAMO_ROOM];
    pilzdamo_written written;
    memset(columns, 0xab, sizeof columns);
    written = pilzdamo_to_columns(rows.bytes, rows.len, columns, sizeof columns);
    print_written("to columns", written);
    printf("its version: %d, behind it: %x\n", word_at(columns, 0), columns[written.length]);
    print_placed("measure it", pilzdamo_measure(columns, written.length));
    print_placed("place it", pilzdamo_place(columns, written.length, out, sizeof out));
    printf("its version: %d\n", word_at(out, 0));
    print_written("to rows", pilzdamo_to_rows(columns, written.length, out, sizeof out));
    printf("as before: %d\n", memcmp(out, rows.bytes, rows.len) == 0);
    print_written("to rows again", pilzdamo_to_rows(out, rows.len, columns, sizeof columns));
    print_written("in less", pilzdamo_to_rows(columns, 1, out, sizeof out - 1));
}

static void print_in_force(const char *call, pilzdamo_notice_in_force told) {
    printf("%s: refusal %d %d, notice %d, %d bytes from byte %d on\n", call, told.number,
           told.place, told.notice, told.length, told.at);
}

/* November's plan and December's, which was sent early. */
static void notices(const char *folder) {
    clinic november = example(folder, "notices/november.notice");
    clinic december = example(folder, "notices/december.notice");
    const uint16_t october_31 = 9800, november_15 = 9815, december_1 = 9831;
    pilzdamo_notice_in_force told =
        pilzdamo_in_force(november.bytes, november.len, december.bytes, december.len,
                          november_15);
    print_in_force("in November", told);
    print("read its file", pilzdamo_read(november.bytes + told.at, told.length));
    told = pilzdamo_in_force(november.bytes, november.len, december.bytes, december.len,
                             december_1);
    print_in_force("in December", told);
    print("read its file", pilzdamo_read(december.bytes + told.at, told.length));
    print_in_force("in October", pilzdamo_in_force(november.bytes, november.len,
                                                   december.bytes, december.len,
                                                   october_31));
    print_in_force("cut", pilzdamo_in_force(november.bytes, november.len, december.bytes,
                                            december.len - 1, november_15));
    print_in_force("two days alone", pilzdamo_in_force(november.bytes, 2, december.bytes, 2,
                                                       november_15));
}

static void print_figures(const char *call, pilzdamo_figures told) {
    size_t number;
    printf("%s: files %d, refused", call, (int)told.files);
    for (number = 1; number <= PILZDAMO_NUMBERS; number++) {
        if (told.refused[number - 1] != 0) {
            printf(" %d at %d,", (int)told.refused[number - 1], (int)number);
        }
    }
    printf(" sessions %d, on steps %d, most %d, per 1,000: %d and %d\n", (int)told.sessions,
           (int)told.on_steps, (int)told.most, (int)told.quotient, (int)told.remainder);
}

/* Four files in a row, and the same cut off by a byte. */
static void sheet(const char *folder) {
    static const char *const names[] = {"transfer.clinic", "refused/09-name.clinic",
                                        "nothing.clinic", "overlap.clinic"};
    static uint8_t input[4 * (2 + PILZDAMO_ROOM)];
    size_t len = 0, i;
    for (i = 0; i < 4; i++) {
        clinic file = example(folder, names[i]);
        input[len++] = (uint8_t)(file.len & 0xff);
        input[len++] = (uint8_t)(file.len >> 8);
        memcpy(input + len, file.bytes, file.len);
        len += file.len;
    }
    print_figures("sheet", pilzdamo_sheet(input, len));
    print_figures("cut off", pilzdamo_sheet(input, len - 1));
    print_figures("no files", pilzdamo_sheet(input, 0));
}

/* Refusals with their places. */
static void refusals(const char *folder) {
    static const uint16_t odd[] = {2, 0, 2}, unequal[] = {2, 0, 1, 0};
    uint8_t out[PILZDAMO_RUN_ROOM], any = 0, placed[PILZDAMO_ROOM_1];
    clinic file = example(folder, "refused/06-record.clinic");
    print("record", pilzdamo_read(file.bytes, file.len));
    file = example(folder, "refused/13-role.clinic");
    print("role", pilzdamo_check(file.bytes, file.len));
    print("no bytes", pilzdamo_check(&any, 0));
    print_placed("place no bytes", pilzdamo_place(&any, 0, placed, sizeof placed));
    print("what is placed", pilzdamo_check(placed, 26));
    print("one byte", pilzdamo_check(&any, 1));
    file = example(folder, "refused/choices.clinic");
    print("odd", pilzdamo_run(file.bytes, file.len, odd, 3, out, sizeof out));
    print("unequal", pilzdamo_run(file.bytes, file.len, unequal, 4, out, sizeof out));
    print_state(out);
}

/* Refusals as sentences. */
static void print_reason(uint16_t number, uint16_t counts, uint16_t place, uint16_t tag) {
    uint8_t out[PILZDAMO_SENTENCE];
    uint16_t length = pilzdamo_reason(number, counts, place, tag, out, sizeof out);
    pilzdamo_said said = pilzdamo_read_reason(out, length);
    printf("said: %.*s\n", (int)length, (const char *)out);
    printf("read: %d %d %d %d\n", said.number, said.counts, said.place, said.tag);
}

static void reasons(void) {
    uint8_t out[PILZDAMO_SENTENCE];
    uint16_t length;
    print_reason(13, PILZDAMO_COUNTS_NODES, 4, 6);
    print_reason(3, PILZDAMO_COUNTS_NOTHING, 0, PILZDAMO_NO_TAG);
    print_reason(23, PILZDAMO_COUNTS_ROWS, 64, PILZDAMO_NO_TAG);
    print_reason(27, PILZDAMO_COUNTS_NOTICES, 2, PILZDAMO_NO_TAG);
    print_reason(13, PILZDAMO_COUNTS_NODES, 4, PILZDAMO_NO_TAG);
    length = pilzdamo_phrase(20, out, sizeof out);
    printf("phrase: %.*s\n", (int)length, (const char *)out);
    printf("in less: %d %d\n", pilzdamo_phrase(20, out, sizeof out - 1),
           pilzdamo_reason(13, 4, 1, PILZDAMO_NO_TAG, out, sizeof out - 1));
}

static void print_closing(const char *call, pilzdamo_closing closing) {
    printf("%s: refusal %d %d, row %lu\n", call, closing.number, closing.place,
           (unsigned long)closing.row);
}

/* Nothing planned has one state, in which there is nothing. */
static void certificates(void) {
    uint8_t file[1] = {0};
    uint16_t seats[1] = {0}, states[2] = {0, 0};
    uint32_t places[2] = {0, 0}, next[1] = {0}, one[1] = {1};
    print_closing("one state", pilzdamo_closed(file, 0, seats, 0, states, 2, places, 1, next, 0));
    print_closing("two rows", pilzdamo_closed(file, 0, seats, 0, states, 2, places, 2, next, 1));
    print_closing("a word less", pilzdamo_closed(file, 0, seats, 0, states, 1, places, 1, next, 0));
    print_closing("no row", pilzdamo_closed(file, 1, seats, 0, states, 2, places, 0, next, 0));
    print_closing("one byte", pilzdamo_closed(file, 1, seats, 1, states, 2, places, 1, next, 0));
    print_closing("a seat", pilzdamo_closed(file, 0, seats, 1, states, 2, places, 1, next, 0));
    print_closing("all of it", pilzdamo_closed_part(file, 0, seats, 0, states, 2, places, 1, next,
                                                    0, 0, 1, 0, 0));
    print_closing("none of it", pilzdamo_closed_part(file, 0, seats, 0, states, 2, places, 1,
                                                     next, 0, 0, 0, 0, 0));
    print_closing("a row of two", pilzdamo_closed_part(file, 0, seats, 0, states, 2, places, 2,
                                                       next, 1, 1, 2, 0, 0));
    print_closing("after a number", pilzdamo_closed_part(file, 0, seats, 0, states, 2, places, 2,
                                                         one, 1, 1, 2, 1, 1));
    print_closing("a number too few", pilzdamo_closed_part(file, 0, seats, 0, states, 2, places,
                                                           2, one, 1, 0, 1, 0, 1));
}

static void print_offers(const char *call, pilzdamo_offered told, const uint16_t *out) {
    size_t at = 0, word;
    printf("%s: refusal %d %d, offers %d, words %lu\n", call, told.number, told.place,
           told.count, (unsigned long)told.length);
    while (at < told.length) {
        printf("thread %d, partner %d, answer %d:", out[at], out[at + 1], out[at + 2]);
        for (word = 0; word < out[at + 3]; word++) {
            printf(" %d", out[at + 4 + word]);
        }
        printf("\n");
        at += 4 + out[at + 3];
    }
}

/* Two compares of equal users, side by side: either can be done. */
static void offers(void) {
    static const uint16_t words[] = {1, 1, 0, 0, 0, 2, 4, 13, 14, 14, 14, 14, 20, 0, 1, 0,
                                     1, 1, 0, 3, 4, 1, 1, 0,  0,  0,  4,  1,  1,  0, 0, 0};
    static const uint16_t state[] = {2, 0, 1, 1, 0, 0, 0, 0, 0, 0, 0, 0, 0, 0,
                                     1, 3, 0, 0, 0, 0, 0, 0, 0, 0, 0, 0, 1, 2};
    const size_t count = sizeof state / sizeof *state;
    uint8_t file[sizeof words];
    uint16_t out[70], seats[1] = {0};
    size_t at;
    for (at = 0; at < sizeof words / sizeof *words; at++) {
        file[2 * at] = (uint8_t)(words[at] & 0xff);
        file[2 * at + 1] = (uint8_t)(words[at] >> 8);
    }
    memset(out, 0xab, sizeof out);
    print_offers("offers", pilzdamo_offers(file, sizeof file, seats, 0, state, count, out, 70),
                 out);
    printf("behind them: %x\n", out[64]);
    print_offers("in less", pilzdamo_offers(file, sizeof file, seats, 0, state, count, out, 63),
                 out);
    print_offers("a word less",
                 pilzdamo_offers(file, sizeof file, seats, 0, state, count - 1, out, 70), out);
    print_offers("a seat", pilzdamo_offers(file, sizeof file, seats, 1, state, count, out, 70),
                 out);
    print_offers("one byte", pilzdamo_offers(file, 1, seats, 1, state, count, out, 70), out);
}

int main(int argc, char **argv) {
    if (argc != 2) {
        fprintf(stderr, "the folder of the examples is wanted\n");
        return 2;
    }
    printf("sizes: %d %d %d %d %d %d %d %d %d %d %d %d %d\n", (int)sizeof(pilzdamo_verdict),
           (int)sizeof(pilzdamo_placed), (int)sizeof(pilzdamo_ready_pair),
           (int)sizeof(pilzdamo_round_choices), (int)sizeof(pilzdamo_kind_totals),
           (int)sizeof(pilzdamo_said), (int)sizeof(pilzdamo_written),
           (int)sizeof(pilzdamo_role_seats), (int)sizeof(pilzdamo_thread),
           (int)sizeof(pilzdamo_notice_in_force), (int)sizeof(pilzdamo_figures),
           (int)sizeof(pilzdamo_closing), (int)sizeof(pilzdamo_offered));
    printf("rooms: %d %d %d %d %d\n", PILZDAMO_ROOM, PILZDAMO_ROOM_1, PILZDAMO_RUN_ROOM,
           PILZDAMO_RECORDS, PILZDAMO_BESIDE);
    printf("hours: %d %d\n", PILZDAMO_WEEK, PILZDAMO_ROWS);
    printf("rounds: %d %d\n", PILZDAMO_ROUND_WORDS, PILZDAMO_BEFORE_ROUND);
    printf("totals: %d\n", PILZDAMO_TOTALS);
    printf("seats: %d %d %d %d\n", PILZDAMO_ROLES, PILZDAMO_SESSIONS, PILZDAMO_LINE_WORDS,
           PILZDAMO_SEATS);
    printf("offers: %d %d\n", PILZDAMO_ROW_WORDS, PILZDAMO_OFFERS_ROOM);
    printf("sheets: %d %d\n", PILZDAMO_NUMBERS, PILZDAMO_SHEET_FILES);
    printf("reasons: %d %d %d %d %d %d %d %d %d\n", PILZDAMO_SENTENCE, PILZDAMO_NO_TAG,
           PILZDAMO_COUNTS_NOTHING, PILZDAMO_COUNTS_WORDS, PILZDAMO_COUNTS_SESSIONS,
           PILZDAMO_COUNTS_NODES, PILZDAMO_COUNTS_CHOICES, PILZDAMO_COUNTS_ROWS,
           PILZDAMO_COUNTS_NOTICES);
    booking(argv[1]);
    head_nurse(argv[1]);
    hours(argv[1]);
    both_read(argv[1]);
    waiting(argv[1]);
    dispatch(argv[1]);
    seats(argv[1]);
    certificates();
    offers();
    house(argv[1]);
    turns(argv[1]);
    notices(argv[1]);
    sheet(argv[1]);
    refusals(argv[1]);
    reasons();
    return 0;
}
