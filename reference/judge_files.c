/* Reads the first 65536 bytes of the files `key` and `run`, a missing one being empty, and prints
 * the judge's verdict. */
#include "reference.h"

#include <stdio.h>

enum { MOST = 65536 };

static size_t read_file(const char *name, uint8_t *bytes)
{
    FILE *f = fopen(name, "rb");
    if (!f)
        return 0;
    size_t length = fread(bytes, 1, MOST, f);
    fclose(f);
    return length;
}

int main(void)
{
    static uint8_t key[MOST], run[MOST];
    size_t key_len = read_file("key", key), run_len = read_file("run", run);
    uint32_t verdict = ref_judge(key, key_len, run, run_len);
    if (verdict == ACCEPTED)
        puts("accepted");
    else
        printf("refused %u\n", verdict);
    return 0;
}
