/* Reads the first 65536 bytes of the file `key`, a missing one being empty, and in turn those of `run01` to `run99`, up to the first
 * that cannot be opened. Prints the name and the judge's verdict of each, and a last line with the numbers of accepted, of refused and
 * of all runs. */
#include "reference.h"

#include <stdio.h>

enum { MOST = 65536, RUNS = 99 };

/* Whether the file can be opened; then its bytes. One that cannot be read, as a directory, has none. */
static int read_file(const char *name, uint8_t *bytes, size_t *length)
{
    FILE *f = fopen(name, "rb");
    *length = 0;
    if (!f)
        return 0;
    *length = fread(bytes, 1, MOST, f);
    fclose(f);
    return 1;
}

int main(void)
{
    static uint8_t key[MOST], run[MOST];
    size_t key_len, run_len;
    int accepted = 0, refused = 0;
    read_file("key", key, &key_len);
    for (int i = 1; i <= RUNS; i++) {
        char name[16];
        snprintf(name, sizeof name, "run%02d", i);
        if (!read_file(name, run, &run_len))
            break;
        uint32_t verdict = ref_judge(key, key_len, run, run_len);
        if (verdict == ACCEPTED) {
            accepted++;
            printf("%s accepted\n", name);
        } else {
            refused++;
            printf("%s refused %u\n", name, verdict);
        }
    }
    printf("accepted %d refused %d total %d\n", accepted, refused, accepted + refused);
    return 0;
}
