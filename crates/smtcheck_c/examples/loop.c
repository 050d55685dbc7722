/* Checks dialogues 10,000 times, each in a buffer of its own that has exactly its bytes, for a tool that watches what is read, written
   and freed. Each report has to be the right one, or to leave a buffer that is too short as it was. */
#include "smtcheck.h"
#include <stdio.h>
#include <stdlib.h>
#include <string.h>

static const char *const scripts[] = {
    "(declare-const p Bool)(assert p)(check-sat)(get-model)",
    "(declare-fun f (Int) Int)(push 1)(assert (! (= (f 1) 2) :named a))(check-sat)(get-model)(pop 1)(check-sat)",
    "(declare-const v (_ BitVec 8))(assert (= v #x0f",
    "",
};
static const char *const answers[] = {
    "sat ((define-fun p () Bool true))",
    "sat ((define-fun f ((x Int)) Int (ite (= x 1) 3 0))) unknown",
    "unsat",
    "",
};
static const char *const reports[] = {
    "check 1 at command 3: sat, confirmed\nverdict: valid, confirmed 1, refuted 0, undecided 0, unchecked 0\n",
    "check 1 at command 4: sat, model of command 5: refuted by the assertion of command 3\ncheck 2 at command 7: unknown\n"
    "verdict: invalid, confirmed 0, refuted 1, undecided 0, unchecked 1\n",
    "fault X3 in the script at byte 47\nverdict: refused, confirmed 0, refuted 0, undecided 0, unchecked 0\n",
    "verdict: valid, confirmed 0, refuted 0, undecided 0, unchecked 0\n",
};
static const uint32_t outcomes[] = {SMTCHECK_VALID, SMTCHECK_INVALID, SMTCHECK_REFUSED, SMTCHECK_VALID};

/* A copy of a text with no byte to spare (`malloc(0)` may be null). */
static char *copy_of(const char *text, size_t length) {
    char *copy = malloc(length ? length : 1);
    if (!copy) exit(70);
    return memcpy(copy, text, length);
}

int main(int count, char **words) {
    int turns = count > 1 ? atoi(words[1]) : 10000;
    for (int turn = 0; turn < turns; turn++) {
        int k = turn % 4;
        size_t script_length = strlen(scripts[k]), answers_length = strlen(answers[k]), length = strlen(reports[k]), wanted = 0;
        /* every third buffer is one byte too short */
        size_t room = turn % 3 ? length : length - 1;
        char *script = copy_of(scripts[k], script_length), *answer = copy_of(answers[k], answers_length), *text = malloc(room);
        struct smtcheck_options options = {SMTCHECK_STEPS, false, false};
        struct smtcheck_summary summary = {0};
        if (!text) return 70;
        memset(text, '#', room);
        uint32_t outcome = smtcheck_validate(script, script_length, answer, answers_length, &options, &summary, text, room, &wanted);
        int right = outcome == outcomes[k] && wanted == length;
        if (room == length) right = right && memcmp(text, reports[k], length) == 0;
        else for (size_t i = 0; i < room; i++) right = right && text[i] == '#';
        if (!right) {
            fprintf(stderr, "turn %d: outcome %u, %zu bytes wanted: %.*s\n", turn, outcome, wanted, (int)room, text);
            return 1;
        }
        free(script), free(answer), free(text);
    }
    return 0;
}
