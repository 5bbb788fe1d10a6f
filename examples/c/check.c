/* Builds the constraint system of a program and the witness of a run through the library, evaluates every constraint
 * by itself, and compares its verdict with that of `check`: for the witness, and for it with one value changed.
 *
 *     check PROGRAM TAPE AUX STEPS                 the files are read here; a name `-` is an empty file
 *     check PROGRAM TAPE AUX STEPS SEED TURNS      then changes bytes of all files, in as many turns
 *
 * The last line is `c: N passed, M failed`, and the status 1 where one failed. */
#include "tinyr1cs.h"

#include <stdio.h>
#include <stdlib.h>
#include <string.h>

__extension__ typedef unsigned __int128 wide;
static const uint64_t P = 0xffffffff00000001;

typedef struct {
    uint8_t *at;
    size_t size;
} bytes;

static int passed, failed;

static void expect(int holds, const char *what) {
    if (holds) {
        passed++;
    } else {
        failed++;
        fprintf(stderr, "c: %s\n", what);
    }
}

static void *room_for(size_t size) {
    void *at = malloc(size ? size : 1);
    if (!at) {
        fprintf(stderr, "c: no memory\n");
        exit(1);
    }
    return at;
}

static bytes copy_of(bytes from) {
    bytes copy = {room_for(from.size), from.size};
    memcpy(copy.at, from.at, from.size);
    return copy;
}

static bytes read_file(const char *name) {
    bytes file = {room_for(1 << 20), 0};
    FILE *stream = strcmp(name, "-") ? fopen(name, "rb") : NULL;
    if (stream) {
        file.size = fread(file.at, 1, 1 << 20, stream);
        fclose(stream);
    } else if (strcmp(name, "-")) {
        fprintf(stderr, "c: no file %s\n", name);
        exit(1);
    }
    return file;
}

/* The library's calls, with texts that end in a zero byte. */

static uint32_t set(tinyr1cs *session, const char *name, bytes contents) {
    return tinyr1cs_set(session, name, strlen(name), contents.at, contents.size);
}

/* Runs a command, whose words end with NULL. */
static uint32_t run(tinyr1cs *session, const char *const *words) {
    for (; *words; words++) {
        uint32_t status = tinyr1cs_word(session, *words, strlen(*words));
        if (status != TINYR1CS_DONE) return status;
    }
    return tinyr1cs_run(session);
}
#define RUN(session, ...) run(session, (const char *const[]){__VA_ARGS__, NULL})

static bytes get(tinyr1cs *session, const char *name) {
    uint64_t has = 0;
    uint8_t none[1];
    tinyr1cs_copy(session, name, strlen(name), 0, none, 0, &has);
    bytes file = {room_for(has), has};
    /* in pieces, as a caller would that has less room */
    for (uint64_t from = 0; from < file.size; from += 1000) {
        uint64_t left = file.size - from;
        size_t room = left < 1000 ? left : 1000;
        uint32_t status = tinyr1cs_copy(session, name, strlen(name), from, file.at + from, room, &has);
        expect(has == left && status == (left > 1000 ? TINYR1CS_SHORT : TINYR1CS_DONE), "a piece of a file");
    }
    return file;
}

/* The last line, without its line feed. */
static const char *said(tinyr1cs *session) {
    static char line[4096];
    uint64_t has = 0;
    uint32_t status = tinyr1cs_line(session, line, sizeof line - 1, &has);
    if (status != TINYR1CS_DONE) has = 0;
    if (has && line[has - 1] == '\n') has--;
    line[has] = 0;
    return line;
}

/* The r1cs and wtns formats (docs/FORMATS.md) as `build` and `witness` write them: sections in order. */

static uint64_t number(const uint8_t *at, int size) {
    uint64_t n = 0;
    for (int i = size - 1; i >= 0; i--) n = n << 8 | at[i];
    return n;
}

static uint64_t times(uint64_t a, uint64_t b) { return (uint64_t)((wide)a * b % P); }
static uint64_t plus(uint64_t a, uint64_t b) { return (uint64_t)(((wide)a + b) % P); }

/* The value of the combination at *at, which is moved past it. */
static uint64_t value(const uint8_t **at, const uint8_t *values) {
    uint64_t sum = 0;
    uint64_t terms = number(*at, 4);
    *at += 4;
    for (uint64_t i = 0; i < terms; i++, *at += 12)
        sum = plus(sum, times(number(*at + 4, 8), number(values + 8 * number(*at, 4), 8)));
    return sum;
}

enum { SYSTEM_HEAD = 12 + 12 + 40, WITNESS_HEAD = 12 + 12 + 16 + 12 };

/* The first constraint that fails, or their number. */
static uint64_t first_failing(bytes system, bytes witness) {
    const uint8_t *at = system.at + SYSTEM_HEAD + 12;
    uint64_t constraints = number(system.at + SYSTEM_HEAD - 4, 4);
    for (uint64_t i = 0; i < constraints; i++) {
        uint64_t a = value(&at, witness.at + WITNESS_HEAD);
        uint64_t b = value(&at, witness.at + WITNESS_HEAD);
        uint64_t c = value(&at, witness.at + WITNESS_HEAD);
        if (times(a, b) != c) return i;
    }
    return constraints;
}

/* Compares the verdict of `check` on a witness with what is found here. */
static void compare(tinyr1cs *session, bytes system, bytes witness, const char *what) {
    char line[64] = "yes";
    uint64_t failing = first_failing(system, witness);
    uint64_t constraints = number(system.at + SYSTEM_HEAD - 4, 4);
    if (failing < constraints) snprintf(line, sizeof line, "no: constraint %llu", (unsigned long long)failing);
    expect(set(session, "witness", witness) == TINYR1CS_DONE, "setting a witness");
    uint32_t status = RUN(session, "check", "system", "witness", "public");
    expect(status == (failing < constraints) && !strcmp(said(session), line), what);
}

/* A number of words that a tape's text has. */
static unsigned words_of(bytes tape) {
    unsigned words = 0;
    for (size_t i = 0; i < tape.size; i++)
        if (tape.at[i] > ' ' && (i == 0 || tape.at[i - 1] <= ' ')) words++;
    return words;
}

/* The public list: the answer, then the tape. */
static bytes public_list(const char *answer, bytes tape) {
    size_t size = strlen(answer);
    bytes list = {room_for(size + 1 + tape.size), size + 1 + tape.size};
    memcpy(list.at, answer, size);
    list.at[size] = ' ';
    memcpy(list.at + size + 1, tape.at, tape.size);
    return list;
}

static uint64_t seed;

static uint64_t draw(uint64_t below) {
    seed = seed * 6364136223846793005 + 1442695040888963407;
    return (seed >> 33) % below;
}

/* A copy with some bytes changed, at the front or anywhere, and at times cut. */
static bytes altered(bytes from) {
    bytes copy = copy_of(from);
    if (copy.size && draw(4) == 0) copy.size = draw(copy.size);
    for (uint64_t n = 1 + draw(4); n && copy.size; n--)
        copy.at[draw(draw(2) ? copy.size : (copy.size < 128 ? copy.size : 128))] = (uint8_t)draw(256);
    return copy;
}

/* One turn: some of the files are changed, and the commands that read them run. Whatever they say, the session answers,
 * and with its first files `check` says yes again. */
static void turn(tinyr1cs *session, const char *const *names, const bytes *files, const char *count,
                 const char *steps) {
    static const char *const readers[][8] = {
        {"asm", "program", "image"},
        {"disasm", "system", "text"},
        {"run", "program", "tape", "aux", "64"},
        {"check", "system", "witness", "public"},
        {"shrink", "system", "out"},
        {"build", "program", "1", "8", "built"},
        {"witness", "program", "tape", "aux", "64", "values"},
    };
    enum { FILES = 6, READERS = sizeof readers / sizeof *readers };
    uint64_t which = draw(FILES);
    bytes other = altered(files[which]);
    expect(set(session, names[which], other) == TINYR1CS_DONE, "setting changed bytes");
    for (int i = 0; i < READERS; i++) {
        uint32_t status = run(session, readers[i]);
        expect(status < TINYR1CS_NOT_UTF8, "a status of a command");
    }
    uint32_t extracted = RUN(session, "extract", "program", count, steps, "witness", "tape2", "aux2");
    expect(extracted < TINYR1CS_NOT_UTF8, "a status of extract");
    expect(set(session, names[which], files[which]) == TINYR1CS_DONE, "setting a file again");
    expect(RUN(session, "check", "system", "witness", "public") == 0, "check after a turn");
    free(other.at);
}

/* What each call does where it can't do its work. */
static void refusals(tinyr1cs *session) {
    tinyr1cs none = {0};
    uint64_t has = 1;
    uint8_t room[1];
    expect(tinyr1cs_open(session) == TINYR1CS_OPENED, "opening twice");
    expect(tinyr1cs_run(&none) == TINYR1CS_CLOSED, "running without a session");
    expect(tinyr1cs_set(session, NULL, 0, "", 0) == TINYR1CS_NULL, "a null name");
    expect(tinyr1cs_word(session, "\xff", 1) == TINYR1CS_NOT_UTF8, "a word that is no text");
    expect(tinyr1cs_copy(session, "no", 2, 0, room, 1, &has) == TINYR1CS_ABSENT && has == 0, "a file that isn't there");
    expect(tinyr1cs_line(session, room, 1, &has) == TINYR1CS_DONE && has == 0, "no line yet");
    expect(tinyr1cs_run(session) == 2, "no words");
    expect(tinyr1cs_line(session, room, 1, &has) == TINYR1CS_SHORT && has > 1, "a line for which there is no room");
    tinyr1cs_close(&none);
}

int main(int argc, char **argv) {
    if (argc != 5 && argc != 7) {
        fprintf(stderr, "usage: check PROGRAM TAPE AUX STEPS [SEED TURNS]\n");
        return 2;
    }
    bytes program = read_file(argv[1]), tape = read_file(argv[2]), aux = read_file(argv[3]);
    const char *steps = argv[4];
    char count[16], answer[32] = "";
    snprintf(count, sizeof count, "%u", words_of(tape));
    tinyr1cs session = {0};
    expect(tinyr1cs_open(&session) == TINYR1CS_DONE, "opening a session");
    refusals(&session);
    set(&session, "program", program), set(&session, "tape", tape), set(&session, "aux", aux);
    expect(RUN(&session, "run", "program", "tape", "aux", steps) == 0, "run");
    expect(sscanf(said(&session), "answer %31s at step", answer) == 1, "the answer");
    bytes list = public_list(answer, tape);
    set(&session, "public", list);
    expect(RUN(&session, "build", "program", count, steps, "system") == 0, "build");
    expect(RUN(&session, "witness", "program", "tape", "aux", steps, "witness") == 0, "witness");
    bytes system = get(&session, "system"), witness = get(&session, "witness");
    if (failed == 0) {
        compare(&session, system, witness, "check of the witness");
        bytes other = copy_of(witness);
        other.at[other.size - 8] ^= 1;
        compare(&session, system, other, "check of a changed witness");
        compare(&session, system, witness, "check of the witness again");
        free(other.at);
    }
    if (argc == 7 && failed == 0) {
        const char *const names[] = {"program", "tape", "aux", "public", "system", "witness"};
        const bytes files[] = {program, tape, aux, list, system, witness};
        seed = strtoull(argv[5], NULL, 10);
        for (long turns = atol(argv[6]); turns > 0; turns--) turn(&session, names, files, count, steps);
    }
    tinyr1cs_close(&session);
    free(program.at), free(tape.at), free(aux.at), free(list.at), free(system.at), free(witness.at);
    printf("c: %d passed, %d failed\n", passed, failed);
    return failed != 0;
}
