/* Asks hostile texts into buffers that end where memory ends: a byte past one would stop the program. For each text but those of 10 MB, a
 * buffer of every length from 0 to one more than the answers have, in one call and over a handle, from which the rest is fetched in parts of
 * that length; what is written is a prefix of the answers, and the report has their length. NULL stands for a text and a buffer of length 0. */
#include "hir_expr_store.h"

#include <stdio.h>
#include <stdlib.h>
#include <sys/mman.h>
#include <unistd.h>

/* A place whose end is followed by memory that can't be touched. */
typedef struct {
    char *end;
    size_t room;
} guarded;

static guarded guarded_new(size_t room) {
    size_t page = (size_t)sysconf(_SC_PAGESIZE);
    size_t pages = (room + page - 1) / page * page;
    char *at = mmap(NULL, pages + page, PROT_READ | PROT_WRITE, MAP_PRIVATE | MAP_ANONYMOUS, -1, 0);
    if (at == MAP_FAILED || mprotect(at + pages, page, PROT_NONE) != 0) {
        perror("mmap");
        exit(3);
    }
    return (guarded){at + pages, pages};
}

static unsigned failures;

static void check(bool is_so, const char *what, const char *text, size_t length) {
    if (!is_so && ++failures < 20)
        printf("%s: a buffer of %zu bytes: %.60s\n", what, length, text);
}

/* How many bytes of answers a buffer of every length is tried for; of longer ones, lengths are left out in the middle. */
static const size_t EVERY = 4096;

/* Whether the bytes from one place up to another are those that were put there. */
static bool is_untouched(const char *from, const char *end) {
    for (; from < end; from++)
        if (*from != (char)0xa5)
            return false;
    return true;
}

/* What a text gives: its answers, and the report of them. */
typedef struct {
    const char *text;
    size_t text_length;
    char *answers;
    hir_expr_store_report report;
    uint32_t status;
} wanted;

static bool is_same_place(const hir_expr_store_report *report, const hir_expr_store_report *other) {
    return report->line == other->line && report->column == other->column && report->reason == other->reason;
}

/* Asks in one call, or over a handle, into a buffer of this length at the end of a place, and compares. Of a long place only what is near the
 * buffer is looked at. */
static void compare_first(const wanted *want, hir_expr_store_handle *handle, guarded out, size_t length) {
    char *buffer = out.end - length, *from = out.end - out.room;
    if ((size_t)(buffer - from) > EVERY)
        from = buffer - EVERY;
    memset(from, 0xa5, (size_t)(out.end - from));
    hir_expr_store_report report;
    char *given = length == 0 ? NULL : buffer;
    uint32_t status = handle == NULL ? hir_expr_store_answer(want->text, want->text_length, given, length, &report)
                                     : hir_expr_store_ask(handle, want->text, want->text_length, given, length, &report);
    size_t written = length < want->report.length ? length : want->report.length;
    check(status == want->status && is_same_place(&report, &want->report), "status", want->text, length);
    check(report.length == want->report.length, "length", want->text, length);
    check(report.written == written, "written", want->text, length);
    check(memcmp(buffer, want->answers, written) == 0, "prefix", want->text, length);
    check(is_untouched(buffer + written, out.end), "after what was written", want->text, length);
    check(is_untouched(from, buffer), "before the buffer", want->text, length);
}

/* Fetches what is left after a buffer of this length, in parts of that length. */
static void compare_rest(const wanted *want, hir_expr_store_handle *handle, guarded out, size_t length) {
    size_t part = length == 0 ? 1 : length, done = length < want->report.length ? length : want->report.length;
    char *buffer = out.end - part;
    hir_expr_store_report report;
    do {
        memset(buffer, 0xa5, part);
        uint32_t status = hir_expr_store_fetch(handle, buffer, part, &report);
        size_t left = want->report.length - done;
        check(status == HIR_EXPR_STORE_ANSWERED && report.length == left, "fetched", want->text, length);
        check(report.written == (part < left ? part : left) && report.line == 0, "fetched", want->text, length);
        check(memcmp(buffer, want->answers + done, report.written) == 0, "fetched bytes", want->text, length);
        check(is_untouched(buffer + report.written, out.end), "after what was fetched", want->text, length);
        done += report.written;
    } while (report.written != 0);
    check(done == want->report.length, "fetched all", want->text, length);
}

/* One call and one handle with a buffer of this length. */
static void compare(const wanted *want, guarded out, size_t length) {
    hir_expr_store_handle handle = HIR_EXPR_STORE_CLOSED;
    hir_expr_store_report report;
    compare_first(want, NULL, out, length);
    check(hir_expr_store_open(&handle, NULL, 0, &report) == HIR_EXPR_STORE_ANSWERED, "open", want->text, length);
    compare_first(want, &handle, out, length);
    compare_rest(want, &handle, out, length);
    check(hir_expr_store_close(&handle) == HIR_EXPR_STORE_ANSWERED, "close", want->text, length);
}

/* Opens with a text: where a line is bad the handle stays closed, else it keeps the answers. */
static void open_with(const wanted *want) {
    hir_expr_store_handle handle = HIR_EXPR_STORE_CLOSED;
    hir_expr_store_report report;
    bool is_taken = want->status == HIR_EXPR_STORE_ANSWERED || want->status == HIR_EXPR_STORE_REFUSED;
    uint32_t status = hir_expr_store_open(&handle, want->text, want->text_length, &report);
    check(status == want->status && handle.is_open == is_taken && is_same_place(&report, &want->report), "open", want->text, 0);
    check(report.length == (is_taken ? want->report.length : 0) && report.written == 0, "open length", want->text, 0);
    check((hir_expr_store_close(&handle) == HIR_EXPR_STORE_ANSWERED) == is_taken, "close", want->text, 0);
}

/* Asks a text, which lies before memory that can't be touched too, into buffers of every length. */
static void every_length(const char *text, size_t text_length) {
    guarded in = guarded_new(text_length);
    wanted want = {text_length == 0 ? NULL : in.end - text_length, text_length, NULL, {0}, 0};
    if (text_length != 0)
        memcpy(in.end - text_length, text, text_length);
    want.status = hir_expr_store_answer(want.text, text_length, NULL, 0, &want.report);
    check(want.report.written == 0, "written", text, 0);
    guarded out = guarded_new(want.report.length + 1);
    want.answers = malloc(want.report.length + 1);
    if (want.answers == NULL)
        exit(3);
    hir_expr_store_report full;
    (void)hir_expr_store_answer(want.text, text_length, want.answers, want.report.length, &full);
    open_with(&want);
    for (size_t length = 0; length <= want.report.length + 1; length++) {
        if (length > EVERY / 2 && length + EVERY / 2 < want.report.length)
            length = want.report.length - EVERY / 2;
        compare(&want, out, length);
        if (text_length > 1 << 20)
            length += want.report.length / 4;
    }
    free(want.answers);
    munmap(in.end - in.room, in.room);
    munmap(out.end - out.room, out.room);
}

static const char *const TEXTS[] = {
    "",
    "\n",
    "nodes\n",
    "nodes",
    "noise\n",
    "nodes\nnoise\nnodes\n",
    "expr path a\nexpr ref 0\nroot 1\nbody FunctionId(0)\nchain 0\nprint-expr 1\nchain 7\ncaptures 9\n",
    "expr string \"a\\nb\\u{1f600}\"\nroots\nprint-expr 0\n",
    "expr tuple 4294967295\nfinish\n",
    "expr tuple 4294967296\nfinish\n",
    "expr await 0\nroots\nfinish\n",
    "> expr path x\n> print\nrun\n",
    "bind x\npat bind 0 -\nexpr path x\nexpr closure 0 0\nroot 1\nbody FunctionId(0)\nframes 0\ncaptures 1\nprint-expr 1\n",
    "\xff",
    "nodes\n\xc3(\n",
    "expr string \"",
    "expr string \"\\",
    "expr string \"\\u{110000}\"",
    "expr bytes \"\\xf",
    "expr path a::b::<",
    "bind \"\" mut ref",
    "diagnostic MissingBody 0 Fn",
};

/* Noise, the same at each run. */
static uint64_t noise = 88172645463325252u;

static uint32_t next_noise(void) {
    noise ^= noise << 13;
    noise ^= noise >> 7;
    noise ^= noise << 17;
    return (uint32_t)(noise >> 32);
}

/* A long text with a byte, or a line, changed: most are bad lines, whose place is within the line. */
static void changed(const char *text) {
    size_t length = strlen(text);
    char *copy = malloc(length + 1);
    if (copy == NULL)
        exit(3);
    memcpy(copy, text, length + 1);
    copy[next_noise() % length] = (char)next_noise();
    guarded in = guarded_new(length);
    memcpy(in.end - length, copy, length);
    hir_expr_store_report report;
    char answers[64];
    uint32_t status = hir_expr_store_answer(in.end - length, length, answers, sizeof answers, &report);
    size_t lines = 1, at = 0, line_length = 0;
    while (lines < report.line && at < length)
        lines += copy[at++] == '\n';
    while (at + line_length < length && copy[at + line_length] != '\n')
        line_length++;
    bool is_bad = status == HIR_EXPR_STORE_BAD_LINE;
    check(is_bad == (report.column != 0) && is_bad == (report.reason != 0), "place", text, 0);
    check(!is_bad || (lines == report.line && report.column <= line_length + 1), "place in the line", copy, report.column);
    check(is_bad ? (report.reason == HIR_EXPR_STORE_REASON_ENDS_EARLY) <= (report.column == line_length + 1) : true, "reason", copy, 0);
    munmap(in.end - in.room, in.room);
    free(copy);
}

int main(void) {
    size_t count = sizeof TEXTS / sizeof *TEXTS;
    for (size_t i = 0; i < count; i++)
        every_length(TEXTS[i], strlen(TEXTS[i]));
    for (size_t length = 0; length < 200; length++) {
        char text[200];
        for (size_t i = 0; i < length; i++)
            text[i] = (char)next_noise();
        every_length(text, length);
    }
    for (size_t i = 0; i < 20000; i++)
        changed(TEXTS[i % 2 == 0 ? 6 : 12]);
    /* A line of 10 MB. */
    size_t size = 10000000;
    char *line = malloc(size + 32);
    if (line == NULL)
        return 3;
    memcpy(line, "expr path ", 10);
    memset(line + 10, 'n', size);
    memcpy(line + 10 + size, "\nroots\nnodes\n", 14);
    every_length(line, strlen(line));
    memset(line, 'n', size);
    every_length(line, size);
    free(line);
    printf("%zu texts, %u failures\n", count + 202 + 20000, failures);
    return failures == 0 ? 0 : 1;
}
