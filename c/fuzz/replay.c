/* Gives files to a fuzz target, one after another, without a fuzzer. */
#include "target.h"

int main(int count, char **names)
{
    static uint8_t bytes[1 << 20];
    int k;
    for (k = 1; k < count; k++) {
        FILE *file = fopen(names[k], "rb");
        MUST(file != NULL);
        LLVMFuzzerTestOneInput(bytes, fread(bytes, 1, sizeof bytes, file));
        fclose(file);
    }
    printf("%d files\n", count - 1);
    return 0;
}
