/* Holds two stores at a time: asks each, fetches an answer in parts, and shows what refused questions, bad lines and closed handles give. */
#include "hir_expr_store.h"

#include <stdio.h>

/* The body of `fn f(x) { let x = &x; x }`. */
static const char SHADOWED[] =
    "bind x\nbind x\npat bind 0 -\npat bind 1 -\n"
    "expr path x\nexpr ref 0\nexpr path x\nexpr block - 2 let:1:-:1:-\n"
    "root 3\nparam 0\nbody FunctionId(0)\nname FunctionId(0) f\n";

static const char *const STATUS[] = {"answered", "refused", "bad line", "out of memory", "is closed", "is open"};
static const char *const REASON[] = {"", "not UTF-8", "unknown word", "ends early", "unexpected"};

static void show(const char *call, uint32_t status, const hir_expr_store_report *report, const char *answers) {
    printf("%s: %s, %zu of %zu bytes", call, STATUS[status], report->written, report->length);
    if (report->line != 0)
        printf(", line %zu", report->line);
    if (report->column != 0)
        printf(", column %zu: %s", report->column, REASON[report->reason]);
    printf("\n");
    if (answers != NULL && report->written != 0) {
        fwrite(answers, 1, report->written, stdout);
        if (answers[report->written - 1] != '\n')
            printf("..\n");
    }
}

static void ask(hir_expr_store_handle *handle, const char *text, size_t room) {
    char answers[256], call[300];
    hir_expr_store_report report;
    uint32_t status = hir_expr_store_ask(handle, text, strlen(text), answers, room < sizeof answers ? room : sizeof answers, &report);
    size_t count = hir_expr_store_quote(text, strlen(text), call, sizeof call - 1);
    call[count] = 0;
    show(call, status, &report, answers);
}

static void fetch(hir_expr_store_handle *handle, size_t room) {
    char answers[256];
    hir_expr_store_report report;
    uint32_t status = hir_expr_store_fetch(handle, answers, room, &report);
    show("fetch", status, &report, answers);
}

int main(void) {
    hir_expr_store_handle first = HIR_EXPR_STORE_CLOSED, second = HIR_EXPR_STORE_CLOSED;
    hir_expr_store_report report;

    if (hir_expr_store_version() != HIR_EXPR_STORE_VERSION)
        return 1;
    ask(&first, "nodes", 256);
    show("open", hir_expr_store_open(&first, SHADOWED, sizeof SHADOWED - 1, &report), &report, NULL);
    fetch(&first, 256);
    show("open", hir_expr_store_open(&first, "nodes", 5, &report), &report, NULL);
    show("open", hir_expr_store_open(&second, NULL, 0, &report), &report, NULL);

    /* Each handle has its own store, and keeps it. */
    ask(&first, "resolve 2 x\nchain 0", 256);
    ask(&second, "expr path y\nroots\nroot 0\nprint-expr 0", 256);
    ask(&first, "resolve 0 x", 256);
    ask(&second, "line expr:0", 256);

    /* An answer in parts; a new question drops what is left. */
    ask(&first, "pretty FunctionId(0)", 16);
    fetch(&first, 8);
    fetch(&first, 256);
    fetch(&first, 256);
    ask(&first, "pretty FunctionId(0)", 4);
    ask(&first, "nodes", 0);
    fetch(&first, 256);

    /* What is refused, and what is bad. */
    ask(&first, "chain 0\nchain 9\nresolve 2 z\nof body FunctionId(7)", 256);
    ask(&first, "chain 0\nchian 0\nchain 0", 256);
    ask(&first, "chain", 256);
    ask(&first, "chain 0 1", 256);
    ask(&first, "resolve 2 \"x", 256);
    ask(&first, "expr tuple 1,4294967296,2", 256);
    ask(&first, "expr bin ++ 1 2", 256);
    ask(&first, "body StructId(0)", 256);
    ask(&first, "chain 0\nchain \xff", 256);
    /* A bad line did nothing: the store is as it was, also where nodes wait to be finished. */
    ask(&first, "line expr:3", 256);
    ask(&second, "expr path z\nnoise", 256);
    ask(&second, "expr ref 0\nroot 1\nparam 0 1 2", 256);
    ask(&second, "print-expr 1", 256);
    show("open", hir_expr_store_open(&second, "", 0, &report), &report, NULL);

    /* Answers one by one. */
    char answers[256], text[64];
    const char *question = "pretty-expr 2\nchain 9\nprint-expr 1";
    uint32_t status = hir_expr_store_ask(&first, question, strlen(question), answers, sizeof answers, &report);
    const char *from = answers, *end = answers + report.written;
    printf("%s\n", STATUS[status]);
    for (hir_expr_store_entry entry; hir_expr_store_next(&from, end, &entry);) {
        size_t length = hir_expr_store_text(&entry, text, sizeof text);
        printf("%s %zu: %.*s\n", entry.is_refusal ? "refused" : "answered", length, (int)length, text);
    }

    printf("close: %s\n", STATUS[hir_expr_store_close(&first)]);
    printf("close: %s\n", STATUS[hir_expr_store_close(&first)]);
    ask(&first, "nodes", 256);
    fetch(&first, 256);
    ask(&second, "nodes", 256);
    printf("close: %s\n", STATUS[hir_expr_store_close(&second)]);

    /* Where the text to open with has a bad line, the handle stays closed; with a refused question it is open. */
    show("open", hir_expr_store_open(&first, "nodes\nnodse\n", 12, &report), &report, NULL);
    ask(&first, "nodes", 256);
    show("open", hir_expr_store_open(&first, "nodes\nchain 0\n", 14, &report), &report, NULL);
    fetch(&first, 256);
    printf("close: %s\n", STATUS[hir_expr_store_close(&first)]);
    return 0;
}
