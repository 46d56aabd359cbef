/* Hands files to the fuzzer's host, one after the other. */
#include <stdint.h>
#include <stdio.h>

int LLVMFuzzerInitialize(int *argc, char ***argv);
int LLVMFuzzerTestOneInput(const uint8_t *input, size_t len);

int main(int argc, char **argv)
{
    static uint8_t input[65536];
    int i;
    LLVMFuzzerInitialize(&argc, &argv);
    for (i = 1; i < argc; i++) {
        FILE *file = fopen(argv[i], "rb");
        size_t len;
        if (file == NULL) {
            perror(argv[i]);
            return 2;
        }
        len = fread(input, 1, sizeof input, file);
        fclose(file);
        LLVMFuzzerTestOneInput(input, len);
    }
    return 0;
}
