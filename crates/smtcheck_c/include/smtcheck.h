/*
 * smtcheck: checks the models that an SMT solver printed.
 *
 * This is the interface of the static library that crates/smtcheck_c builds. Every call is proved to do what is said
 * here, as long as its caller keeps to the four rules below, which nothing checks. docs/EMBEDDING.md says how to link
 * it, and docs/CLAIMS.md says what 'valid' means.
 *
 * 1. A pointer leads to as many bytes, or to the struct, that the call says, and these have a value: also where a
 *    call only writes them. No pointer is null, not even for a length of 0: of an empty text it may be any address.
 * 2. What a call may write overlaps nothing else that is passed to it, and nobody else uses it meanwhile. What it
 *    only reads is not changed meanwhile.
 * 3. No length is over PTRDIFF_MAX, and `print_success` and `wide` are true or false and no other bytes.
 * 4. No call is made from a signal handler, or in the child of a fork of a process with several threads. `malloc`,
 *    `realloc` and `free` are of one allocator, which aligns a block to each power of two up to 16 that divides
 *    its size.
 *
 * A call keeps no pointer that it is given, so any number of threads may call at a time; a session stays on the thread
 * that began it. 256 KB of the machine's stack are enough for a call, however deep lists nest. Nothing checks it, and a
 * stack that is too small ends the process by a signal.
 */
#ifndef SMTCHECK_H
#define SMTCHECK_H

#include <stdbool.h>
#include <stddef.h>
#include <stdint.h>

#ifdef __cplusplus
extern "C" {
#endif

/* What a call returns. The first four are verdicts, and are the program's exit statuses. */
enum smtcheck_outcome {
    /* Every `sat` is confirmed: the solver printed a model for it, and each such model makes every assertion in force
       and every assumption of its `check-sat-assuming` true. In the profile `wide`, items that repeat the script's
       definitions or tell of declared sorts are no part of a model. The verdict says nothing of the other answers. */
    SMTCHECK_VALID = 0,
    /* Some model that the solver printed for a `sat` makes an assertion in force false, or an assumption of its
       `check-sat-assuming`. */
    SMTCHECK_INVALID = 1,
    /* No `sat` is refuted, and some `sat` is not confirmed. */
    SMTCHECK_NOT_DECIDED = 2,
    /* The script or the answers have a fault, which the line before the last names. */
    SMTCHECK_REFUSED = 3,
    /* Memory was refused. This says nothing of the dialogue. */
    SMTCHECK_MEMORY = 4,
    /* `steps` is UINT64_MAX, which is no limit, or there is no such form. The call did not look at the texts. */
    SMTCHECK_OPTIONS = 5,
    /* Of a session: the verdict is not decided yet. */
    SMTCHECK_OPEN = 6,
    /* Of a session: a text has more than UINT64_MAX bytes. */
    SMTCHECK_LONG = 7
};

/* The options of a dialogue, beside its two texts. */
struct smtcheck_options {
    /* How many steps the evaluation of a model may take, from 0 to UINT64_MAX - 1. A model that may cost more is
       reported as `too long`, and is not evaluated. */
    uint64_t steps;
    /* Whether the solver prints `success`, from the start, for each command that has no answer of its own. */
    bool print_success;
    /* Whether the language is that of the profile `wide`, and not that of `base`: docs/LANGUAGE.md has both. An
       initializer that leaves it out means `base`. */
    bool wide;
};

/* The program's limit of steps, if its caller gives none. */
#define SMTCHECK_STEPS UINT64_C(10000000)

/* How many checks of each kind a report has, and how many lines. */
struct smtcheck_summary {
    uint64_t confirmed; /* a `sat` with a model or more, each of them confirmed */
    uint64_t refuted;   /* a `sat` with a model that makes an assertion or an assumption false */
    uint64_t undecided; /* a `sat` that is neither */
    uint64_t unchecked; /* a check with an answer other than `sat` */
    uint64_t lines;     /* all lines, with the verdict line */
};

/*
 * Checks a solver's dialogue: the `script_length` bytes at `script`, which the solver read, and the `answers_length`
 * bytes at `answers`, which it printed, in order.
 *
 * It returns a verdict, or SMTCHECK_MEMORY or SMTCHECK_OPTIONS.
 *
 * With a verdict, `*summary` has the counts of the report, and `*wanted` is the length of its text in bytes. The text
 * is the lines that the program prints, each with a line feed after it, and has no byte 0. If it has at most `room`
 * bytes, the first bytes at `text` are the text, and those after it stay as they were. If it has more, all `room` bytes
 * stay as they were, and none of the text is there: the caller looks whether `*wanted` is over `room`.
 *
 * Without a verdict, `*summary`, `*wanted` and the bytes at `text` stay as they were.
 */
uint32_t smtcheck_validate(const char *script, size_t script_length, const char *answers, size_t answers_length,
                           const struct smtcheck_options *options, struct smtcheck_summary *summary, char *text,
                           size_t room, size_t *wanted);

/* The forms of an explanation, all in printable ASCII. */
enum smtcheck_form {
    /* Lines for people. One that tells of a place begins with it, as `script:11:1: `, and any other with four blanks.
       Each has at most 200 bytes and a line feed, and no check has more than 200 lines. There is none where all is
       confirmed. */
    SMTCHECK_TEXT = 0,
    /* For each line of the report an object of JSON on a line of its own, with these members:
       - `check`: the number of the check; null of a fault and of the verdict
       - `outcome`: `confirmed`, `unchecked`, `refuted` and so on; of a fault `text-fault` and so on; of the last object
         the verdict: `valid`, `invalid`, `not-decided` or `refused`
       - `remarks`: what is told of it, each with `kind`, `number`, `spot`, `command`, `in`, `text`, `reason`, `values`
         and `items`
       - `left_out`: how many remarks were left out: there are at most 199 */
    SMTCHECK_JSON = 1,
    /* A document of SARIF 2.1.0 (Static Analysis Results Interchange Format), with a result for each check that is not
       confirmed and one for the fault. Its message is what SMTCHECK_TEXT says. */
    SMTCHECK_SARIF = 2
};

/*
 * Explains the report on a dialogue, as the program does with `--explain`: each check that is not confirmed, and the
 * fault, with its line and column, and why. `form` is one of `enum smtcheck_form`. The explanation calls the two texts
 * `script` and `answers`.
 *
 * It returns a number as smtcheck_validate does, and SMTCHECK_OPTIONS also where there is no such form. With a verdict,
 * `*wanted` is the length of the explanation in bytes, and the bytes at `text` are as there. Tests check what it says,
 * and no proof does; that the verdict is the right one is proved.
 */
uint32_t smtcheck_explain(const char *script, size_t script_length, const char *answers, size_t answers_length,
                          const struct smtcheck_options *options, uint32_t form, char *text, size_t room,
                          size_t *wanted);

/*
 * A session, which accepts a dialogue piece by piece: the script as the caller sends it to the solver, and the answers
 * as they come. Or none: `struct smtcheck_session session = {0};`. Only the calls below change it, and nobody copies it
 * while it has a session.
 */
struct smtcheck_session {
    void *at;
};

/*
 * Begins a session of two texts of which nothing has come, in a `*session` that has none. It returns SMTCHECK_OPEN, or
 * SMTCHECK_MEMORY or SMTCHECK_OPTIONS, and then `*session` has none.
 */
uint32_t smtcheck_session_new(const struct smtcheck_options *options, struct smtcheck_session *session);

/*
 * The four calls that feed a session that was begun. A piece may end anywhere, also inside a token, and may be empty.
 * The caller reports the end of a text once, and passes no piece after it. The texts come in any order: the report does
 * not depend on it, nor on how the caller cuts them.
 *
 * Each returns the verdict, once it is decided, and SMTCHECK_OPEN before. Once both ends are reported there is a
 * verdict. SMTCHECK_MEMORY and SMTCHECK_LONG say that the session goes no further, and every later one of these calls
 * returns the same. The lines that were decided before can still be taken.
 */
uint32_t smtcheck_session_script(struct smtcheck_session *session, const char *piece, size_t length);
uint32_t smtcheck_session_answers(struct smtcheck_session *session, const char *piece, size_t length);
uint32_t smtcheck_session_end_script(struct smtcheck_session *session);
uint32_t smtcheck_session_end_answers(struct smtcheck_session *session);

/* The verdict of a session that was begun, once it is decided, and SMTCHECK_OPEN before; also of a failed session. */
uint32_t smtcheck_session_verdict(struct smtcheck_session *session);

/*
 * Takes the text of the next decided lines from a session that was begun. The session withdraws no line later.
 *
 * `*wanted` is the length of that text in bytes, 0 where there is no line. If it has at most `room` bytes, the first
 * bytes at `text` are the text, and those after it stay as they were: these lines are taken. If it has more, all stay
 * as they were, and the next call gives the same lines, and no later ones with them. So a caller that wants all lines
 * calls until `*wanted` is 0. Together the texts are the report's.
 *
 * It returns a number as smtcheck_session_verdict does. Or it returns SMTCHECK_MEMORY: then no line is taken, `*wanted`
 * and the bytes at `text` stay as they were, and the next call gives the same lines. The session does not fail by it.
 */
uint32_t smtcheck_session_text(struct smtcheck_session *session, char *text, size_t room, size_t *wanted);

/* Gives back the memory of a session that was begun. Then `*session` has none. */
void smtcheck_session_free(struct smtcheck_session *session);

/*
 * Writes the version of the library, and the toolchain that proved it, as `smtcheck --version` prints them after the
 * program's name: `0.13.1 (rattle-kit-13f ..)`.
 *
 * It returns the length of that text in bytes. The text has no byte 0. If it has at most `room` bytes, the first bytes
 * at `text` are the text, and those after it stay as they were; if it has more, all stay as they were.
 */
size_t smtcheck_version(char *text, size_t room);

#ifdef __cplusplus
}
#endif

#endif
