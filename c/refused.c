/* Refuses memory: the library's first request, then its second, and so on, each in a run of its own over handles. Each call says so or does
 * what it does with all memory, handles stay usable, and at the end no block is left.
 *
 * This program has the three calls for memory itself, so nothing of the kit is linked. */
#include "hir_expr_store.h"

#include <stdio.h>
#include <stdlib.h>

/* What the library's calls for memory return: whether there is memory, and where. */
typedef struct {
    bool is_there;
    void *at;
} block;

static size_t requests, refused, blocks;

static block given(void *at) {
    return (block){at != NULL, at};
}

block rattle_alloc(size_t size, size_t align) {
    if (++requests == refused)
        return given(NULL);
    void *at = malloc(size == 0 ? align : size);
    blocks += at != NULL;
    return given(at);
}

block rattle_realloc(void *at, size_t old_size, size_t size, size_t align) {
    (void)old_size;
    return given(++requests == refused ? NULL : realloc(at, size == 0 ? align : size));
}

void rattle_dealloc(void *at) {
    blocks--;
    free(at);
}

static unsigned failures;

static void check(bool is_so, const char *what) {
    if (!is_so && ++failures < 20)
        printf("request %zu: %s\n", refused, what);
}

static const char BODY[] =
    "bind x\nbind y\npat bind 0 -\npat bind 1 -\nexpr path x\nexpr path y\nexpr tuple 0,1\nexpr closure 2 1\n"
    "root 3\nparam 0\nbody FunctionId(0)\nname FunctionId(0) f\n";

static const char *const QUESTIONS[] = {"chain 0", "resolve 1 y", "captures 3", "usages", "rename 0 z", "pretty FunctionId(0)", "lines exprs"};

enum { COUNT = sizeof QUESTIONS / sizeof *QUESTIONS };

static char wanted[COUNT][256];
static size_t lengths[COUNT];

/* One run over a handle. Returns whether memory was refused. */
static bool run(bool is_first) {
    hir_expr_store_handle handle = HIR_EXPR_STORE_CLOSED;
    hir_expr_store_report report;
    bool was_refused = false;
    uint32_t status = hir_expr_store_open(&handle, BODY, sizeof BODY - 1, &report);
    if (status == HIR_EXPR_STORE_OUT_OF_MEMORY) {
        was_refused = true;
        check(!handle.is_open && report.length == 0, "opened without memory");
        check(hir_expr_store_close(&handle) == HIR_EXPR_STORE_IS_CLOSED, "closed without memory");
        status = hir_expr_store_open(&handle, BODY, sizeof BODY - 1, &report);
    }
    check(status == HIR_EXPR_STORE_ANSWERED, "not opened");
    for (int i = 0; i < COUNT; i++) {
        char answers[256];
        status = hir_expr_store_ask(&handle, QUESTIONS[i], strlen(QUESTIONS[i]), answers, sizeof answers, &report);
        if (status == HIR_EXPR_STORE_OUT_OF_MEMORY) {
            was_refused = true;
            check(handle.is_open && report.length == 0, "a part of an answer");
            /* The body is in the tables, so the same question is answered now. */
            status = hir_expr_store_ask(&handle, QUESTIONS[i], strlen(QUESTIONS[i]), answers, sizeof answers, &report);
        }
        check(status == HIR_EXPR_STORE_ANSWERED, QUESTIONS[i]);
        if (is_first) {
            memcpy(wanted[i], answers, report.written);
            lengths[i] = report.length;
        }
        check(report.length == lengths[i] && report.written == lengths[i] && memcmp(answers, wanted[i], lengths[i]) == 0, QUESTIONS[i]);
    }
    check(hir_expr_store_close(&handle) == HIR_EXPR_STORE_ANSWERED, "not closed");
    char answers[64];
    status = hir_expr_store_answer(BODY, sizeof BODY - 1, answers, sizeof answers, &report);
    was_refused = was_refused || status == HIR_EXPR_STORE_OUT_OF_MEMORY;
    check(status == HIR_EXPR_STORE_OUT_OF_MEMORY || (status == HIR_EXPR_STORE_ANSWERED && report.length == 11), "one call");
    check(blocks == 0, "a block is left");
    return was_refused;
}

int main(void) {
    check(!run(true), "refused with all memory");
    size_t all = requests;
    for (refused = 1; refused <= all; refused++) {
        requests = 0;
        check(run(false), "not refused");
    }
    printf("%zu requests refused in turn, %u failures\n", all, failures);
    return failures == 0 ? 0 : 1;
}
