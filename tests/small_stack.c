/* small_stack BYTES [explain]: checks dialogues whose lists stand in one another to the limits of 1,000, and of 1,000,000 in the wide
   profile, on a thread with so many bytes of stack, through smtcheck_validate and through a session; or it explains them, and dialogues
   whose definitions are deep together. Prints each dialogue whose verdict is another than the right one, and nothing
   where all is well. A stack that is too small ends it by a signal. */
#include "smtcheck.h"
#include <pthread.h>
#include <stdio.h>
#include <stdlib.h>
#include <string.h>

/* A text in which `open` and `close` stand `times` times around a middle. */
struct text {
    const char *head, *open;
    int times;
    const char *middle, *close, *tail;
};

struct dialogue {
    const char *name;
    struct text script, answers;
    uint32_t outcome;
};

#define PLAIN(text) {text, "", 0, "", "", ""}
#define ASK "(check-sat)(get-model)"
#define ASKED PLAIN("(declare-const p Bool)(assert p)" ASK)
#define CHECKED(open, times, middle, close, outcome) \
    {"a term of " open, {"(assert ", open, times, middle, close, ")" ASK}, PLAIN("sat ()"), outcome}
#define MODEL(open, times, middle, close, outcome) \
    {"a model's " open, ASKED, {"sat ((define-fun p () Bool ", open, times, middle, close, "))"}, outcome}

static const struct dialogue dialogues[] = {
    CHECKED("(not ", 998, "true", ")", SMTCHECK_VALID),
    CHECKED("(not ", 999, "true", ")", SMTCHECK_INVALID),
    CHECKED("(and true ", 999, "true", ")", SMTCHECK_VALID),
    CHECKED("(ite true ", 999, "true", " false)", SMTCHECK_VALID),
    CHECKED("(! ", 999, "true", " :a)", SMTCHECK_VALID),
    CHECKED("(let ((x true)) ", 997, "x", ")", SMTCHECK_VALID),
    {"a let's value", {"(assert ", "(let ((x ", 333, "true", ")) x)", ")" ASK}, PLAIN("sat ()"), SMTCHECK_VALID},
    {"numbers", {"(assert (= 0 ", "(- ", 998, "0", ")", "))" ASK}, PLAIN("sat ()"), SMTCHECK_VALID},
    {"vectors", {"(assert (= #b0 ", "(bvnot ", 998, "#b0", ")", "))" ASK}, PLAIN("sat ()"), SMTCHECK_VALID},
    {"a body", {"(define-fun f ((x Bool)) Bool ", "(not ", 999, "x", ")", ")(assert (f false))" ASK}, PLAIN("sat ()"), SMTCHECK_VALID},
    {"calls", {"(define-fun f ((x Bool)) Bool x)(assert ", "(f ", 999, "true", ")", ")" ASK}, PLAIN("sat ()"), SMTCHECK_VALID},
    {"a term that is wrong at its end", {"(assert ", "(not ", 999, "1", ")", ")"}, PLAIN(""), SMTCHECK_REFUSED},
    {"a sort", {"(declare-const x ", "(", 999, "Bool", ")", ")"}, PLAIN(""), SMTCHECK_REFUSED},
    {"a sort's arguments", {"(declare-const x ", "(Array Int ", 999, "Bool", ")", ")"}, PLAIN(""), SMTCHECK_REFUSED},
    {"an abbreviation", {"(define-sort A () ", "(A ", 999, "Bool", ")", ")"}, PLAIN(""), SMTCHECK_REFUSED},
    {"assumptions", {"(check-sat-assuming (", "(not ", 998, "true", ")", "))"}, PLAIN("sat"), SMTCHECK_REFUSED},
    {"information", {"(set-info :a ", "(", 999, "", ")", ")"}, PLAIN(""), SMTCHECK_VALID},
    {"lists that are too deep", {"", "(", 1001, "", ")", ""}, PLAIN(""), SMTCHECK_REFUSED},
    {"lists that do not end", {"(assert ", "(not ", 999, "", "", ""}, PLAIN(""), SMTCHECK_REFUSED},
    MODEL("(not ", 998, "true", ")", SMTCHECK_VALID),
    MODEL("(and true ", 998, "true", ")", SMTCHECK_VALID),
    MODEL("(let ((x true)) ", 996, "x", ")", SMTCHECK_VALID),
    MODEL("(ite true ", 998, "true", " false)", SMTCHECK_VALID),
    MODEL("(not ", 998, "1", ")", SMTCHECK_NOT_DECIDED),
    {"a model's sort", ASKED, {"sat ((define-fun p () ", "(", 997, "Bool", ")", " true))"}, SMTCHECK_NOT_DECIDED},
    {"a model's name", ASKED, {"sat ((define-fun ", "(", 997, "p", ")", " () Bool true))"}, SMTCHECK_NOT_DECIDED},
    {"an answer", PLAIN("(set-option :produce-unsat-cores true)(check-sat)(get-unsat-core)"), {"unsat ", "(", 1000, "", ")", ""}, SMTCHECK_VALID},
    {"an answer to a check", PLAIN("(check-sat)"), {"", "(", 1000, "", ")", ""}, SMTCHECK_REFUSED},
    {"answers that are left over", PLAIN(""), {"", "(", 1000, "", ")", ""}, SMTCHECK_REFUSED},
};

/* In the wide profile. */
static const struct dialogue deep[] = {
    CHECKED("(not ", 999998, "true", ")", SMTCHECK_VALID),
    CHECKED("(and true ", 999999, "true", ")", SMTCHECK_VALID),
    CHECKED("(and ", 999999, "true", " true)", SMTCHECK_VALID),
    CHECKED("(! ", 999999, "true", " :a)", SMTCHECK_VALID),
    CHECKED("(let ((x true)) ", 999997, "x", ")", SMTCHECK_VALID),
    CHECKED("(let ((x false) (y ", 333333, "true", ")) y)", SMTCHECK_VALID),
    CHECKED("(not ", 999999, "1", ")", SMTCHECK_REFUSED),
    MODEL("(ite true ", 999998, "true", " false)", SMTCHECK_VALID),
    CHECKED("(and ", 999999, "false", " true)", SMTCHECK_INVALID),
    CHECKED("(ite true ", 999999, "false", " true)", SMTCHECK_INVALID),
    CHECKED("(let ((x false)) ", 999997, "x", ")", SMTCHECK_INVALID),
    {"a sort", {"(declare-const x ", "(Array Int ", 999999, "Bool", ")", ")"}, PLAIN(""), SMTCHECK_REFUSED},
    {"information", {"(set-info :a ", "(", 999999, "", ")", ")"}, PLAIN(""), SMTCHECK_VALID},
    {"lists that are too deep", {"", "(", 1000001, "", ")", ""}, PLAIN(""), SMTCHECK_REFUSED},
    {"answers that are left over", PLAIN(""), {"", "(", 1000000, "", ")", ""}, SMTCHECK_REFUSED},
};

/* The text's bytes. */
static char *written(const struct text *text) {
    size_t most = 1 + strlen(text->head) + text->times * (strlen(text->open) + strlen(text->close)) + strlen(text->middle) +
                  strlen(text->tail ? text->tail : "");
    char *bytes = malloc(most), *end = bytes;
    if (!bytes) exit(SMTCHECK_MEMORY);
    end += sprintf(end, "%s", text->head);
    for (int i = 0; i < text->times; i++) end += sprintf(end, "%s", text->open);
    end += sprintf(end, "%s", text->middle);
    for (int i = 0; i < text->times; i++) end += sprintf(end, "%s", text->close);
    sprintf(end, "%s", text->tail ? text->tail : "");
    return bytes;
}

static const struct smtcheck_options options = {SMTCHECK_STEPS, false, false}, wide = {100 * SMTCHECK_STEPS, false, true};

/* The verdict on two whole texts. */
static uint32_t whole(const struct smtcheck_options *options, const char *script, const char *answers) {
    struct smtcheck_summary summary;
    char text[4096] = {0};
    size_t wanted = 0;
    return smtcheck_validate(script, strlen(script), answers, strlen(answers), options, &summary, text, sizeof text, &wanted);
}

/* The verdict on two whole texts that comes with their explanation; SMTCHECK_OPTIONS where it depends on the form. */
static uint32_t explained(const struct smtcheck_options *options, const char *script, const char *answers) {
    static char text[1 << 16];
    uint32_t outcomes[SMTCHECK_SARIF + 1];
    size_t wanted = 0;
    for (uint32_t form = SMTCHECK_TEXT; form <= SMTCHECK_SARIF; form++) {
        outcomes[form] = smtcheck_explain(script, strlen(script), answers, strlen(answers), options, form, text, sizeof text, &wanted);
        if (outcomes[form] != outcomes[SMTCHECK_TEXT]) return SMTCHECK_OPTIONS;
    }
    return outcomes[SMTCHECK_TEXT];
}

/* The verdict of a session that is told the script, and then the answers, in pieces of seven bytes. */
static uint32_t in_pieces(const struct smtcheck_options *options, const char *script, const char *answers) {
    struct smtcheck_session session = {0};
    const char *script_end = script + strlen(script), *answers_end = answers + strlen(answers);
    if (smtcheck_session_new(options, &session) != SMTCHECK_OPEN) return SMTCHECK_MEMORY;
    for (; script < script_end; script += 7) smtcheck_session_script(&session, script, script_end - script < 7 ? script_end - script : 7);
    smtcheck_session_end_script(&session);
    for (; answers < answers_end; answers += 7)
        smtcheck_session_answers(&session, answers, answers_end - answers < 7 ? answers_end - answers : 7);
    uint32_t outcome = smtcheck_session_end_answers(&session);
    smtcheck_session_free(&session);
    return outcome;
}

/* Definitions of h0, h1 .. in a row, each of which is the one before within so many `open`, between two texts; the second names the last,
   and is written behind it. */
static char *chain(const char *head, int count, const char *sort, const char *first, const char *open, int depth, const char *close,
                   const char *tail) {
    size_t each = 64 + strlen(sort) + strlen(first) + depth * (strlen(open) + strlen(close));
    char *bytes = malloc(strlen(head) + count * each + strlen(tail) + 64), *end = bytes;
    if (!bytes) exit(SMTCHECK_MEMORY);
    end += sprintf(end, "%s", head);
    for (int i = 0; i < count; i++) {
        end += sprintf(end, "(define-fun h%d () %s ", i, sort);
        for (int k = 0; k < depth; k++) end += sprintf(end, "%s", open);
        end += i ? sprintf(end, "h%d", i - 1) : sprintf(end, "%s", first);
        for (int k = 0; k < depth; k++) end += sprintf(end, "%s", close);
        end += sprintf(end, ")");
    }
    sprintf(end, tail, count - 1);
    return bytes;
}

/* Explains what definitions that are deep together make false: those of a model, or of a script. */
static int explains(const char *name, const char *script, const char *answers) {
    uint32_t outcome = explained(&options, script, answers);
    if (outcome != SMTCHECK_INVALID) printf("%s: %u\n", name, (unsigned)outcome);
    return outcome != SMTCHECK_INVALID;
}

static int explain_all(void) {
    static const char asked[] = "(declare-const p Bool)(assert p)" ASK;
    char *deep = chain("sat (", 14, "Bool", "false", "(not ", 980, ")", "(define-fun p () Bool h%d))");
    char *many = chain("sat (", 5000, "Bool", "false", "(not ", 2, ")", "(define-fun p () Bool h%d))");
    char *script = chain("", 13, "Bool", "false", "(not ", 980, ")", "(assert h%d)" ASK);
    char *honest = chain("", 5000, "(_ BitVec 32)", "#x00000001", "(bvadd #x00000001 ", 1, ")", "(assert (= h%d #x00000000))" ASK);
    int wrong = explains("deep items", asked, deep) | explains("many items", asked, many) |
                explains("deep definitions", script, "sat ()") | explains("honest definitions", honest, "sat ()");
    free(deep), free(many), free(script), free(honest);
    return wrong;
}

/* Whether a verdict is another than the right one. */
static int differs(const struct dialogue *it, const char *how, uint32_t outcome) {
    if (outcome != it->outcome) printf("%s, %s: %u, not %u\n", it->name, how, (unsigned)outcome, (unsigned)it->outcome);
    return outcome != it->outcome;
}

static int check(const struct smtcheck_options *options, const struct dialogue *it) {
    char *script = written(&it->script), *answers = written(&it->answers);
    int wrong = differs(it, "whole", whole(options, script, answers)) | differs(it, "in pieces", in_pieces(options, script, answers));
    free(script), free(answers);
    return wrong;
}

static void *check_all(void *wrong) {
    for (size_t i = 0; i < sizeof dialogues / sizeof *dialogues; i++) *(int *)wrong |= check(&options, &dialogues[i]);
    for (size_t i = 0; i < sizeof deep / sizeof *deep; i++) *(int *)wrong |= check(&wide, &deep[i]);
    return wrong;
}

static int explain(const struct smtcheck_options *options, const struct dialogue *it) {
    char *script = written(&it->script), *answers = written(&it->answers);
    int wrong = differs(it, "explained", explained(options, script, answers));
    free(script), free(answers);
    return wrong;
}

static void *explain_each(void *wrong) {
    *(int *)wrong |= explain_all();
    for (size_t i = 0; i < sizeof dialogues / sizeof *dialogues; i++) *(int *)wrong |= explain(&options, &dialogues[i]);
    for (size_t i = 0; i < sizeof deep / sizeof *deep; i++) *(int *)wrong |= explain(&wide, &deep[i]);
    return wrong;
}

int main(int count, char **words) {
    pthread_attr_t attributes;
    pthread_t thread;
    int wrong = 0;
    void *(*work)(void *) = count == 3 && strcmp(words[2], "explain") == 0 ? explain_each : check_all;
    if (count < 2 || pthread_attr_init(&attributes) || pthread_attr_setstacksize(&attributes, strtoul(words[1], NULL, 10)) ||
        pthread_create(&thread, &attributes, work, &wrong) || pthread_join(thread, NULL))
        return 64;
    return wrong;
}
