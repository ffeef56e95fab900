/* A bad line does nothing: for a line of each kind, made bad at its end in several ways, a session that was asked it gives the same answers
 * afterwards as one that wasn't. Also where nodes wait to be finished, since a question finishes them. */
#include "hir_expr_store.h"

#include <stdio.h>
#include <stdlib.h>

/* Nodes that wait to be finished, and parts that wait for a definition. */
static const char BASE[] =
    "lifetime static\ntype never\ntype path a\nbind x\npat bind 0 -\nexpr path x\nexpr block - 0\nroot 1\n"
    "param 0\ntype-param T\nname FunctionId(0) f\n";

/* Lines of each kind, which are read where they are whole. */
static const char *const LINES[] = {
    "expr path y", "expr tuple 0,1", "expr let 0 0", "expr block - - let:0:-:0:-", "expr bin + 0 0", "expr int -1 i32", "expr string \"a\"",
    "expr record a x:0 ..", "expr closure 0 0 move", "expr call 0 0", "expr match 0 0:-:0", "expr method 0 m 0", "pat wild", "pat tuple 0 ..0",
    "pat bind 0 -", "pat range - 0", "type tuple 0,0", "type ref 0 0 mut", "type fn unsafe 0", "type impl T1", "bind z mut", "label l",
    "lifetime named 'a", "roots", "root 0", "hygiene 0 root", "pat-hygiene 0 root", "owner 0 0", "block-scope 3", "definition 0 0",
    "map-expr 0:7:3-9 expr:0", "map-expr-back 0 0:7:3-9", "map-pat-back 0 0:7:3-9", "map-type 0:7:3-9 0", "expansion 0:7:3-9 4",
    "diagnostic AwaitOutsideOfAsync 0:7:3-9 \"b\"", "diagnostic MissingBody 0:7:3-9 AssocConst", "param 0 0", "self 0 0",
    "self-source 0:7:3-9", "type-param U default:0 impl", "const-param N 0 default:0", "lifetime-param 'a late", "where 0 T1",
    "where-lifetime 0 0", "field x 0 pub unsafe", "finish", "body FunctionId(0)", "function 0 g 0 - async", "struct 0 S tuple", "plain EnumId(0)",
    "variant StructId(0) unit", "name FunctionId(1) g", "crate-name 0 c", "parent 0 0", "repr 0 C align:4", "raw-words 2015 a,b",
    "of body FunctionId(0)", "begin", "nodes", "line expr:0", "lines exprs", "store-lines", "has expr:0", "children 0", "root-of expr:0",
    "ancestors expr:0", "precedence 0", "owner-of 0", "hygiene-of expr:0", "syntax expr:0", "diagnostics", "expansions", "patterns-for 0",
    "body-parts", "is-self 0", "generics FunctionId(0)", "name-of FunctionId(0)", "chain 0", "frames 0", "scope-counts", "scoped", "resolve 0 x",
    "visible 0", "captures 0", "usages", "usages-of 0", "unresolved", "unused", "rename 0 z", "print-renamed 0 z 2021", "print-expr 0 2021",
    "print-pat 0 oneline", "print-path a", "print-body FunctionId(0)", "pretty FunctionId(0)", "pretty-expr 0", "print-signature FunctionId(0)",
};

/* What is asked afterwards: all that such lines could have changed. */
static const char AFTER[] =
    "expr path after\nnodes\nstore-lines\ndiagnostics\nexpansions\nfunction 0 f 0 -\nfunction-of 0\ngenerics FunctionId(0)\n"
    "params FunctionId(0)\nlifetimes FunctionId(0)\npredicates FunctionId(0)\nexpr path x\npat wild\nroot 0\nbody FunctionId(2)\nbody-parts\n"
    "self-syntax FunctionId(2)\nexpr path x\nroot 0\nvariant StructId(0) record\nvariant-of StructId(0)\nname-of FunctionId(1)\nrepr-of 0\n"
    "crate-name-of 0\nparent-of 0\nraw-words-of 2015\nof body FunctionId(0)\nof body FunctionId(2)\npretty FunctionId(2)\n";

enum { ROOM = 8192 };

static unsigned failures;

static size_t answers_after(const char *line, size_t length, char *answers, uint32_t *status) {
    hir_expr_store_handle handle = HIR_EXPR_STORE_CLOSED;
    hir_expr_store_report report;
    *status = HIR_EXPR_STORE_ANSWERED;
    if (hir_expr_store_open(&handle, BASE, sizeof BASE - 1, &report) != HIR_EXPR_STORE_ANSWERED)
        exit(3);
    if (line != NULL)
        *status = hir_expr_store_ask(&handle, line, length, NULL, 0, &report);
    uint32_t after = hir_expr_store_ask(&handle, AFTER, sizeof AFTER - 1, answers, ROOM, &report);
    if (after > HIR_EXPR_STORE_REFUSED || report.length > ROOM)
        exit(3);
    hir_expr_store_close(&handle);
    return report.length;
}

int main(void) {
    static const char *const ENDS[] = {" ", " extra", "\"", ",", ":", "!", " 9 9 9 9 9 9", "\t", "\xff", NULL};
    static char wanted[ROOM], got[ROOM];
    uint32_t status;
    size_t length = answers_after(NULL, 0, wanted, &status), bad = 0, read = 0;
    for (size_t i = 0; i < sizeof LINES / sizeof *LINES; i++) {
        (void)answers_after(LINES[i], strlen(LINES[i]), got, &status);
        if (status > HIR_EXPR_STORE_REFUSED && ++failures < 20)
            printf("%s: is bad\n", LINES[i]);
        for (size_t k = 0; k < sizeof ENDS / sizeof *ENDS + strlen(LINES[i]); k++) {
            char line[128];
            size_t count = strlen(LINES[i]);
            if (k < sizeof ENDS / sizeof *ENDS)
                count = (size_t)snprintf(line, sizeof line, "%s%s", LINES[i], ENDS[k] == NULL ? "\\" : ENDS[k]);
            else
                memcpy(line, LINES[i], count = k - sizeof ENDS / sizeof *ENDS);
            size_t after = answers_after(line, count, got, &status);
            if (status != HIR_EXPR_STORE_BAD_LINE) {
                read++;
                continue;
            }
            bad++;
            if ((after != length || memcmp(got, wanted, length) != 0) && ++failures < 20)
                printf("%.*s: has changed something\n", (int)count, line);
        }
    }
    printf("%zu bad lines, %zu that are read, %u failures\n", bad, read, failures);
    return failures == 0 ? 0 : 1;
}
