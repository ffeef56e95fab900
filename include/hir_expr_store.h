/* hir_expr_store.h: hold the proved expression store in C, and ask it.
 *
 * A text of lines makes nodes, stores, bodies, signatures and tables, and asks questions about them; the answers come as lines too.
 * crates/hir_text/CALLING.md has the grammar of both, crates/hir_c/CALLING.md says more of each call. scripts/c says how the library is
 * made and what is linked with it:
 *
 *     cc ask.c -I include crates/hir_c/out/libhir_c.a KIT/c/liblibc_c.a
 *
 * where KIT is the folder of the page whose path `rt doc` prints; its archive calls malloc, realloc and free.
 */
#ifndef HIR_EXPR_STORE_H
#define HIR_EXPR_STORE_H

#include <stdbool.h>
#include <stddef.h>
#include <stdint.h>
#include <string.h>

#ifdef __cplusplus
extern "C" {
#endif

/* The version of this header: a library of the same number is called as it says. hir_expr_store_version has that of the library. */
#define HIR_EXPR_STORE_VERSION 1u

/* How a call ended: what each call returns but hir_expr_store_version. */
enum {
    /* Done: each line was taken, and no question was refused. */
    HIR_EXPR_STORE_ANSWERED = 0,
    /* Each line was taken. The question in the line that the report names is the first that was refused: its fault stands behind "! ". */
    HIR_EXPR_STORE_REFUSED = 1,
    /* The line that the report names is none of the grammar, or isn't UTF-8. The lines before it were taken; it has done nothing. */
    HIR_EXPR_STORE_BAD_LINE = 2,
    /* Memory was refused. */
    HIR_EXPR_STORE_OUT_OF_MEMORY = 3,
    /* The handle is closed: nothing was done. */
    HIR_EXPR_STORE_IS_CLOSED = 4,
    /* The handle is open already: nothing was done. */
    HIR_EXPR_STORE_IS_OPEN = 5
};

/* Why a bad line is none of the grammar. */
enum {
    /* There is no bad line. */
    HIR_EXPR_STORE_REASON_NONE = 0,
    /* The bytes from the column on aren't UTF-8. */
    HIR_EXPR_STORE_REASON_NOT_UTF8 = 1,
    /* No line begins with this word. */
    HIR_EXPR_STORE_REASON_UNKNOWN_WORD = 2,
    /* The line ends where a word, or more of its last word, is wanted. */
    HIR_EXPR_STORE_REASON_ENDS_EARLY = 3,
    /* What is written at the column isn't what such a line has there, or such a line has nothing more. */
    HIR_EXPR_STORE_REASON_UNEXPECTED = 4
};

/* A session of the library, or none. It starts as HIR_EXPR_STORE_CLOSED, and is neither copied nor written by the caller: only its address
 * is passed. Each call leaves a handle that the next call may take. */
typedef struct {
    bool is_open;
    void *at;
} hir_expr_store_handle;

#define HIR_EXPR_STORE_CLOSED {false, NULL}

/* What is reported beside the status. */
typedef struct {
    /* How many bytes the answers have: all that this ask gave, or that were still kept before this fetch; of open, all that are kept. */
    size_t length;
    /* How many of them this call wrote into the buffer: the lesser of length and the buffer's length. */
    size_t written;
    /* The bad line, or the line of the first question that was refused, counted from 1 in the text of this call; else 0. */
    size_t line;
    /* Of a bad line, where reading stopped, in bytes counted from 1: the word that isn't what is wanted, or the first byte of it that isn't;
     * one more than the line has where it ends early. Else 0. */
    size_t column;
    /* Of a bad line why, as one of HIR_EXPR_STORE_REASON_..; else 0. */
    uint32_t reason;
} hir_expr_store_report;

/* What the library exports. No pointer may be NULL, also where a length is 0: the functions below see to that. */
uint32_t hir_c_open(hir_expr_store_handle *handle, const uint8_t *text, size_t text_length, hir_expr_store_report *report);
uint32_t hir_c_ask(hir_expr_store_handle *handle, const uint8_t *text, size_t text_length, uint8_t *buffer, size_t buffer_length,
                   hir_expr_store_report *report);
uint32_t hir_c_fetch(hir_expr_store_handle *handle, uint8_t *buffer, size_t buffer_length, hir_expr_store_report *report);
uint32_t hir_c_close(hir_expr_store_handle *handle);
uint32_t hir_c_version(void);
uint32_t hir_c_answer(const uint8_t *text, size_t text_length, uint8_t *buffer, size_t buffer_length, hir_expr_store_report *report);

/* The caller owes, of each call below: a text, buffer, handle or report lies in memory that is the caller's for the time of the call, of
 * which buffer, handle and report are written by nobody else, and don't overlap each other or the text; text and buffer may be NULL where
 * their length is 0, handle and report never; a length is below 2^63. A handle is passed to one call at a time, and may move between
 * threads; any number of handles may be open, and different handles may be used at the same time. No call from a signal handler, nor in
 * the forked child of a process with threads. */

/* Opens a session that has taken the lines of a text, and keeps its answers for hir_expr_store_fetch.
 * ANSWERED or REFUSED: the handle is open. BAD_LINE or OUT_OF_MEMORY: it is closed, nothing is kept. IS_OPEN: it stays as it was. */
static inline uint32_t hir_expr_store_open(hir_expr_store_handle *handle, const char *text, size_t text_length,
                                           hir_expr_store_report *report) {
    return hir_c_open(handle, (const uint8_t *)(text_length == 0 ? "" : text), text_length, report);
}

/* Takes the lines of a text in the session of a handle, writes as much of their answers as the buffer has room for, and keeps the rest for
 * hir_expr_store_fetch; what is kept from before is dropped. Each answer is lines with their ends: the first behind "= ", or "! " where it
 * is a refusal, each further one behind "| ". No zero byte is added.
 * ANSWERED, REFUSED: as above. BAD_LINE: the lines before it were taken, and the answers are theirs. OUT_OF_MEMORY: the answers are those of
 * lines before the one to which memory was refused; of the nodes that wait for a store these may be lost, so close the handle, or go on with
 * `begin`. IS_CLOSED: nothing was done. Of all but IS_CLOSED the handle is open. */
static inline uint32_t hir_expr_store_ask(hir_expr_store_handle *handle, const char *text, size_t text_length, char *buffer,
                                          size_t buffer_length, hir_expr_store_report *report) {
    char none[1];
    return hir_c_ask(handle, (const uint8_t *)(text_length == 0 ? "" : text), text_length,
                     (uint8_t *)(buffer_length == 0 ? none : buffer), buffer_length, report);
}

/* Writes the next part of the answers that are kept, as much as the buffer has room for: ANSWERED, or IS_CLOSED. Where nothing is kept,
 * nothing is written. */
static inline uint32_t hir_expr_store_fetch(hir_expr_store_handle *handle, char *buffer, size_t buffer_length,
                                            hir_expr_store_report *report) {
    char none[1];
    return hir_c_fetch(handle, (uint8_t *)(buffer_length == 0 ? none : buffer), buffer_length, report);
}

/* Closes a handle, and gives all its memory back: ANSWERED, or IS_CLOSED where it was closed. */
static inline uint32_t hir_expr_store_close(hir_expr_store_handle *handle) { return hir_c_close(handle); }

/* The version of the library. */
static inline uint32_t hir_expr_store_version(void) { return hir_c_version(); }

/* Opens, asks and closes. Where report->length exceeds buffer_length, the rest of the answers is lost: the same call with a buffer of
 * report->length bytes gets all of them, and a handle gets them without doing all again. */
static inline uint32_t hir_expr_store_answer(const char *text, size_t text_length, char *buffer, size_t buffer_length,
                                             hir_expr_store_report *report) {
    char none[1];
    return hir_c_answer((const uint8_t *)(text_length == 0 ? "" : text), text_length, (uint8_t *)(buffer_length == 0 ? none : buffer),
                        buffer_length, report);
}

/* Writes a name in quotes, as a line has it, to a buffer, as much as it has room for; returns how many bytes it takes. The name is UTF-8. */
static inline size_t hir_expr_store_quote(const char *name, size_t name_length, char *buffer, size_t buffer_length) {
    static const char digits[] = "0123456789abcdef", letters[] = "n\nr\rt\t\\\\\"\"";
    size_t size = 0;
    for (size_t i = 0; i < name_length + 2; i++) {
        unsigned char c = i == 0 || i == name_length + 1 ? '"' : (unsigned char)name[i - 1];
        char form[7] = {(char)c};
        size_t form_length = 1;
        if (i != 0 && i != name_length + 1) {
            for (size_t k = 0; k < sizeof letters - 1; k += 2)
                if ((char)c == letters[k + 1]) {
                    form[0] = '\\', form[1] = letters[k];
                    form_length = 2;
                }
            if (c == 0)
                form[0] = '\\', form[1] = '0', form_length = 2;
            else if (form_length == 1 && (c < 32 || c == 127)) {
                form[0] = '\\', form[1] = 'u', form[2] = '{', form[3] = digits[c / 16], form[4] = digits[c % 16], form[5] = '}';
                form_length = 6;
            }
        }
        for (size_t k = 0; k < form_length; k++, size++)
            if (size < buffer_length)
                buffer[size] = form[k];
    }
    return size;
}

/* One answer of those that were written to a buffer. */
typedef struct {
    bool is_refusal;
    /* Its lines, each with its mark and its end. */
    const char *lines;
    size_t length;
} hir_expr_store_entry;

/* Takes the next answer of those from *from up to end, and says whether there was one: *from is then behind it. Where a buffer has only a
 * part of an answer, so has the entry. */
static inline bool hir_expr_store_next(const char **from, const char *end, hir_expr_store_entry *entry) {
    const char *at = *from;
    if (at == end)
        return false;
    entry->is_refusal = *at == '!';
    entry->lines = at;
    do {
        const char *line_end = (const char *)memchr(at, '\n', (size_t)(end - at));
        at = line_end == NULL ? end : line_end + 1;
    } while (at != end && *at == '|');
    entry->length = (size_t)(at - entry->lines);
    *from = at;
    return true;
}

/* Writes the text of an answer, its lines without their marks, each but the last with its end, to a buffer, as much as it has room for;
 * returns how many bytes it takes. */
static inline size_t hir_expr_store_text(const hir_expr_store_entry *entry, char *buffer, size_t buffer_length) {
    size_t size = 0;
    for (size_t i = 0; i < entry->length; i++) {
        bool is_first = i == 0 || entry->lines[i - 1] == '\n';
        bool is_space = i > 0 && entry->lines[i] == ' ' && (i == 1 || entry->lines[i - 2] == '\n');
        bool is_end = i == entry->length - 1 && entry->lines[i] == '\n';
        if (is_first || is_space || is_end)
            continue;
        if (size < buffer_length)
            buffer[size] = entry->lines[i];
        size++;
    }
    return size;
}

#ifdef __cplusplus
}
#endif

#endif
