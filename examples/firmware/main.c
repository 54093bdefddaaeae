/* Certifies plan files from C: a line for each file that is named. */
#include <errno.h>
#include <inttypes.h>
#include <stdbool.h>
#include <stdio.h>
#include <string.h>

#include "vaxerku.h"

/* Of a longer file only so many bytes are read, as by the program. */
#define LONGEST 65536

static uint8_t file[LONGEST];

/* Reads the file into the buffer; says why where it cannot. */
static bool read_file(const char *name, size_t *length)
{
    FILE *stream = fopen(name, "rb");
    bool good = false;
    if (stream != NULL) {
        *length = fread(file, 1, LONGEST, stream);
        good = ferror(stream) == 0;
    }
    if (!good) {
        fprintf(stderr, "%s: %s\n", name, strerror(errno));
    }
    if (stream != NULL) {
        fclose(stream);
    }
    return good;
}

int main(int count, char **words)
{
    int status = 0;
    if (count < 2) {
        fprintf(stderr, "usage: firmware-example FILE...\n");
        return 2;
    }
    for (int i = 1; i < count; i++) {
        size_t length;
        if (!read_file(words[i], &length)) {
            status = 1;
            continue;
        }
        uint32_t refusal = vaxerku_certify(file, length);
        if (refusal == 0) {
            printf("%s: certified\n", words[i]);
        } else {
            printf("%s: refused %" PRIu32 "\n", words[i], refusal);
        }
    }
    if (fflush(stdout) != 0) {
        status = 1;
    }
    return status;
}
