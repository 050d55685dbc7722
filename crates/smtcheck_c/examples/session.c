/* Checks a dialogue as it goes: each line is printed once it is decided. Here both texts stand in the program, a command and its answer
   at a time; a tool would send the one to its solver, and read the other from it. */
#include "smtcheck.h"
#include <stdio.h>
#include <string.h>

static struct smtcheck_session session;

/* Prints the lines that are decided, and answers the verdict if there is one. A line has some 100 bytes. */
static uint32_t print_lines(void) {
    char text[4096] = "";
    size_t wanted = 0;
    uint32_t outcome;
    do {
        outcome = smtcheck_session_text(&session, text, sizeof text, &wanted);
        if (outcome == SMTCHECK_MEMORY || wanted > sizeof text) return SMTCHECK_MEMORY;
        fwrite(text, 1, wanted, stdout);
    } while (wanted > 0);
    return outcome;
}

int main(void) {
    static const char *const turns[][2] = {
        {"(declare-const p Bool)(assert p)(check-sat)(get-model)", "sat ((define-fun p () Bool true))"},
        {"(assert (not p))", ""},
        {"(check-sat)", "unsat\n"},
    };
    struct smtcheck_options options = {SMTCHECK_STEPS, false, false};
    if (smtcheck_session_new(&options, &session) != SMTCHECK_OPEN) return SMTCHECK_MEMORY;
    for (size_t turn = 0; turn < sizeof turns / sizeof *turns; turn++) {
        smtcheck_session_script(&session, turns[turn][0], strlen(turns[turn][0]));
        smtcheck_session_answers(&session, turns[turn][1], strlen(turns[turn][1]));
        printf("turn %zu:\n", turn + 1);
        print_lines();
    }
    smtcheck_session_end_script(&session);
    smtcheck_session_end_answers(&session);
    printf("end:\n");
    uint32_t outcome = print_lines();
    smtcheck_session_free(&session);
    return session.at ? SMTCHECK_MEMORY : (int)outcome;
}
