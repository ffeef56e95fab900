/* times lines N: writes a body of N names and N questions, one on each, for the program hir_show.
 * times ask N: opens a handle with the same body, asks the same questions, one call each, and writes how long both took, in milliseconds. */
#include "hir_expr_store.h"

#include <stdio.h>
#include <stdlib.h>
#include <time.h>

static double now(void) {
    struct timespec time;
    clock_gettime(CLOCK_MONOTONIC, &time);
    return (double)time.tv_sec * 1e3 + (double)time.tv_nsec / 1e6;
}

/* `fn(x) { (x, x, ..) }` */
static size_t body(char *text, unsigned long names) {
    char *at = text;
    at += sprintf(at, "bind x\npat bind 0 -\n");
    for (unsigned long i = 0; i < names; i++)
        at += sprintf(at, "expr path x\n");
    at += sprintf(at, "expr tuple ");
    for (unsigned long i = 0; i < names; i++)
        at += sprintf(at, i == 0 ? "%lu" : ",%lu", i);
    at += sprintf(at, "\nroot %lu\nparam 0\n", names);
    return (size_t)(at - text);
}

int main(int count, char **words) {
    unsigned long names = count == 3 ? strtoul(words[2], NULL, 10) : 0;
    char *text = malloc(names * 40 + 1000);
    if (names == 0 || text == NULL)
        return 2;
    size_t length = body(text, names);
    if (strcmp(words[1], "lines") == 0) {
        fwrite(text, 1, length, stdout);
        for (unsigned long i = 0; i < names; i++)
            printf("resolve %lu x\n", i);
        return 0;
    }
    hir_expr_store_handle handle = HIR_EXPR_STORE_CLOSED;
    hir_expr_store_report report;
    length += (size_t)sprintf(text + length, "body FunctionId(0)\n");
    double start = now();
    if (hir_expr_store_open(&handle, text, length, &report) != HIR_EXPR_STORE_ANSWERED)
        return 1;
    double opened = now();
    for (unsigned long i = 0; i < names; i++) {
        char question[64], answer[64];
        size_t asked = (size_t)sprintf(question, "resolve %lu x", i);
        uint32_t status = hir_expr_store_ask(&handle, question, asked, answer, sizeof answer, &report);
        if (status != HIR_EXPR_STORE_ANSWERED || report.written != 4 || memcmp(answer, "= 0\n", 4) != 0)
            return 1;
    }
    double done = now();
    hir_expr_store_close(&handle);
    printf("%.2f %.2f\n", opened - start, done - opened);
    free(text);
    return 0;
}
