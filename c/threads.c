/* Eight threads, each with a handle of its own: each asks a body of its own thousands of times, and gets the answers of its own. */
#include "hir_expr_store.h"

#include <pthread.h>
#include <stdio.h>
#include <stdlib.h>

enum { THREADS = 8, NAMES = 200, ROUNDS = 10 };

/* A body `{ nK; nK; .. }` whose parameters are n0, n1, ..: the path of number i is that of parameter i. */
static char *body(unsigned shift, size_t *length) {
    char *text = malloc(NAMES * 100 + 1000), *at = text;
    if (text == NULL)
        exit(3);
    for (unsigned i = 0; i < NAMES; i++)
        at += sprintf(at, "bind n%u_%u\npat bind %u -\nparam %u\n", shift, i, i, i);
    for (unsigned i = 0; i < NAMES; i++)
        at += sprintf(at, "expr path n%u_%u\n", shift, (i + shift) % NAMES);
    at += sprintf(at, "expr tuple ");
    for (unsigned i = 0; i < NAMES; i++)
        at += sprintf(at, "%s%u", i == 0 ? "" : ",", i);
    at += sprintf(at, "\nroot %u\nbody FunctionId(%u)\n", (unsigned)NAMES, shift);
    *length = (size_t)(at - text);
    return text;
}

static void *run(void *number) {
    unsigned shift = *(unsigned *)number;
    hir_expr_store_handle handle = HIR_EXPR_STORE_CLOSED;
    hir_expr_store_report report;
    size_t length, wrong = 0;
    char *text = body(shift, &length), question[64], wanted[64], got[64];
    if (hir_expr_store_open(&handle, text, length, &report) != HIR_EXPR_STORE_ANSWERED)
        return (void *)1;
    for (unsigned round = 0; round < ROUNDS; round++)
        for (unsigned i = 0; i < NAMES; i++) {
            size_t asked = (size_t)sprintf(question, "resolve %u n%u_%u", i, shift, (i + shift) % NAMES);
            size_t count = (size_t)sprintf(wanted, "= %u\n", (i + shift) % NAMES);
            uint32_t status = hir_expr_store_ask(&handle, question, asked, got, sizeof got, &report);
            wrong += status != HIR_EXPR_STORE_ANSWERED || report.written != count || memcmp(got, wanted, count) != 0;
        }
    wrong += hir_expr_store_close(&handle) != HIR_EXPR_STORE_ANSWERED;
    free(text);
    return wrong == 0 ? NULL : (void *)1;
}

int main(void) {
    pthread_t threads[THREADS];
    unsigned numbers[THREADS], failures = 0;
    for (unsigned i = 0; i < THREADS; i++) {
        numbers[i] = i;
        if (pthread_create(&threads[i], NULL, run, &numbers[i]) != 0)
            return 3;
    }
    for (unsigned i = 0; i < THREADS; i++) {
        void *failed;
        pthread_join(threads[i], &failed);
        failures += failed != NULL;
    }
    printf("%d threads, %u failures\n", THREADS, failures);
    return failures == 0 ? 0 : 1;
}
