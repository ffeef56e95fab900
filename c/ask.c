/* Asks the store about the body of `fn f(x) { let x = &x; x }` in one call: what its expressions see, and what the last `x` means. */
#include "hir_expr_store.h"

#include <stdio.h>

static const char TEXT[] =
    "bind x\n"                /* binding 0, the parameter */
    "bind x\n"                /* binding 1, of the let */
    "pat bind 0 -\n"          /* pattern 0 */
    "pat bind 1 -\n"          /* pattern 1 */
    "expr path x\n"           /* expression 0 */
    "expr ref 0\n"            /* expression 1: &x */
    "expr path x\n"           /* expression 2: the last x */
    "expr block - 2 let:1:-:1:-\n"
    "root 3\n"
    "param 0\n"
    "body FunctionId(0)\n"
    "name FunctionId(0) f\n"
    "chain 0\n"
    "resolve 2 x\n"
    "pretty FunctionId(0)\n";

int main(void) {
    char answers[1024];
    hir_expr_store_report report;
    uint32_t status = hir_expr_store_answer(TEXT, sizeof TEXT - 1, answers, sizeof answers, &report);

    fwrite(answers, 1, report.written, stdout);
    printf("status %u, %zu of %zu bytes", (unsigned)status, report.written, report.length);
    if (report.line != 0)
        printf(", line %zu", report.line);
    printf("\n");
    return status == HIR_EXPR_STORE_ANSWERED ? 0 : 1;
}
