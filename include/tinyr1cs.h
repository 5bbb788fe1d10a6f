/* tinyr1cs as a library: the commands of the program, over files in memory. docs/LIBRARY.md says how to link it and
 * what is proved of it.
 *
 * A session holds files, the words of the next command, and the line of the last one:
 *
 *     tinyr1cs session = {0};
 *     tinyr1cs_open(&session);
 *     tinyr1cs_set(&session, "program", 7, text, text_size);      for each input file
 *     tinyr1cs_word(&session, "build", 5);                        for each word, in their order
 *     tinyr1cs_run(&session);                                     the command; its words are used up
 *     tinyr1cs_copy(&session, "system", 6, 0, into, room, &has);  for each output file
 *     tinyr1cs_close(&session);
 *
 * After tinyr1cs_open the calls may come in any order and any number of times, tinyr1cs_close too; without an open
 * session they do nothing and return TINYR1CS_CLOSED. What a session holds is the library's: only these calls may
 * change or copy the struct, and all calls on it come from one thread. Different sessions may be used by different
 * threads. All other memory is the caller's: the library reads or writes it during the call alone, and keeps copies.
 * What a call writes may not overlap anything else that it is given. A name or a word is UTF-8 of any length, with no
 * zero byte after it. No call prints, reads a file of the disk or ends the process. A session that isn't closed keeps
 * its memory. */
#ifndef TINYR1CS_H
#define TINYR1CS_H

#include <stddef.h>
#include <stdint.h>

#ifdef __cplusplus
extern "C" {
#endif

/* A session, or none where all is zero. */
typedef struct {
    uint64_t opened;
    void *session;
} tinyr1cs;

/* What the calls return. tinyr1cs_run also returns the other statuses of docs/COMMANDS.md, 1 to 13. */
enum {
    TINYR1CS_DONE = 0,
    TINYR1CS_MEMORY = 9,    /* an allocation failed */
    TINYR1CS_NOT_UTF8 = 14, /* a name or a word is not UTF-8 */
    TINYR1CS_CLOSED = 15,   /* there is no session */
    TINYR1CS_OPENED = 16,   /* there already is a session */
    TINYR1CS_SHORT = 17,    /* there is more than the room holds */
    TINYR1CS_ABSENT = 18,   /* there is no file of this name */
    TINYR1CS_NULL = 19      /* a pointer is null; nothing was done */
};

/* The library's functions. Their pointers may not be null, also where a size is 0. The functions below them test that,
 * and then call these. */
uint32_t tinyr1cs_c_open(tinyr1cs *session);
void tinyr1cs_c_close(tinyr1cs *session);
uint32_t tinyr1cs_c_set(tinyr1cs *session, const uint8_t *name, size_t name_size, const uint8_t *contents,
                        size_t contents_size);
uint32_t tinyr1cs_c_word(tinyr1cs *session, const uint8_t *word, size_t word_size);
uint32_t tinyr1cs_c_run(tinyr1cs *session);
uint32_t tinyr1cs_c_copy(tinyr1cs *session, const uint8_t *name, size_t name_size, uint64_t from, uint8_t *into,
                         size_t room, uint64_t *has);
uint32_t tinyr1cs_c_line(tinyr1cs *session, uint8_t *into, size_t room, uint64_t *has);

#ifdef __cplusplus
}
#endif

/* Opens a session without files or words: DONE, OPENED, MEMORY or NULL. */
static inline uint32_t tinyr1cs_open(tinyr1cs *session) {
    if (!session) return TINYR1CS_NULL;
    return tinyr1cs_c_open(session);
}

/* Frees the session with its files, and leaves none. */
static inline void tinyr1cs_close(tinyr1cs *session) {
    if (session) tinyr1cs_c_close(session);
}

/* Makes the name stand for a copy of the contents, whether or not there is such a file: DONE, NOT_UTF8, MEMORY, CLOSED
 * or NULL. All but DONE leave everything as it was. */
static inline uint32_t tinyr1cs_set(tinyr1cs *session, const void *name, size_t name_size, const void *contents,
                                    size_t contents_size) {
    if (!session || !name || !contents) return TINYR1CS_NULL;
    return tinyr1cs_c_set(session, (const uint8_t *)name, name_size, (const uint8_t *)contents, contents_size);
}

/* Adds a word to those of the next command: DONE, NOT_UTF8, MEMORY, CLOSED or NULL. All but DONE leave everything as it
 * was. */
static inline uint32_t tinyr1cs_word(tinyr1cs *session, const void *word, size_t word_size) {
    if (!session || !word) return TINYR1CS_NULL;
    return tinyr1cs_c_word(session, (const uint8_t *)word, word_size);
}

/* Runs the command of the words (docs/COMMANDS.md) on the session's files, and removes the words: its status, CLOSED or
 * NULL. */
static inline uint32_t tinyr1cs_run(tinyr1cs *session) {
    if (!session) return TINYR1CS_NULL;
    return tinyr1cs_c_run(session);
}

/* Copies the file's bytes from a place on, as many as there is room for, and stores in *has how many the file has from
 * there on: DONE; SHORT, where that is more than the room; ABSENT, NOT_UTF8 or CLOSED, where *has is 0; or NULL. So a
 * room of 0 (at a pointer that isn't null) asks for the size, and a file is taken in pieces by raising the place. */
static inline uint32_t tinyr1cs_copy(tinyr1cs *session, const void *name, size_t name_size, uint64_t from, void *into,
                                     size_t room, uint64_t *has) {
    if (!session || !name || !into || !has) return TINYR1CS_NULL;
    return tinyr1cs_c_copy(session, (const uint8_t *)name, name_size, from, (uint8_t *)into, room, has);
}

/* Copies the line that the last command said, in the same way. It ends with a line feed, and is empty where the command
 * said nothing. */
static inline uint32_t tinyr1cs_line(tinyr1cs *session, void *into, size_t room, uint64_t *has) {
    if (!session || !into || !has) return TINYR1CS_NULL;
    return tinyr1cs_c_line(session, (uint8_t *)into, room, has);
}

#endif
