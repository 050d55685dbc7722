/* Checks the dialogue in two files, and prints its report: check on|off SCRIPT ANSWERS. The first word says whether the solver prints
   `success`. The status is that of the program. */
#include "smtcheck.h"
#include <stdio.h>
#include <stdlib.h>
#include <string.h>

/* The bytes of a file, in memory that has room for one more. */
static char *read_file(const char *path, size_t *length) {
    FILE *file = fopen(path, "rb");
    char *bytes = NULL;
    size_t room = 0;
    *length = 0;
    do {
        if (!file || !(bytes = realloc(bytes, room += 65536))) exit(SMTCHECK_MEMORY);
        *length += fread(bytes + *length, 1, room - *length, file);
    } while (*length == room);
    fclose(file);
    return bytes;
}

int main(int count, char **words) {
    if (count != 4) return SMTCHECK_OPTIONS;
    size_t script_length, answers_length, room = 1, wanted = 0;
    char *script = read_file(words[2], &script_length), *answers = read_file(words[3], &answers_length), *text = NULL;
    struct smtcheck_options options = {SMTCHECK_STEPS, strcmp(words[1], "on") == 0, false};
    struct smtcheck_summary summary = {0, 0, 0, 0, 0};
    uint32_t outcome;
    do { /* once more where the text had no room */
        room = wanted > room ? wanted : 4096;
        if (!(text = realloc(text, room))) return SMTCHECK_MEMORY;
        memset(text, 0, room);
        outcome = smtcheck_validate(script, script_length, answers, answers_length, &options, &summary, text, room, &wanted);
    } while (outcome <= SMTCHECK_REFUSED && wanted > room);
    if (outcome <= SMTCHECK_REFUSED) fwrite(text, 1, wanted, stdout);
    free(script), free(answers), free(text);
    return (int)outcome;
}
