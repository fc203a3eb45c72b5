/* Runs a target over the files that are named, and tells how many there were: for compilers without
 * libFuzzer, whose main does the same and more.
 */
#include "fuzz.h"

static void run_file(const char *path)
{
    FILE *file = fopen(path, "rb");
    if (!file || fseek(file, 0, SEEK_END)) {
        perror(path);
        exit(1);
    }
    long length = ftell(file);
    rewind(file);
    /* as long as the input, so that a test of addresses sees what is read behind it */
    uint8_t *bytes = malloc(length > 0 ? (size_t)length : 1);
    if (!bytes || length < 0 || fread(bytes, 1, (size_t)length, file) != (size_t)length) {
        perror(path);
        exit(1);
    }
    fclose(file);
    LLVMFuzzerTestOneInput(bytes, (size_t)length);
    free(bytes);
}

int main(int words, char **word)
{
    for (int at = 1; at < words; at++) run_file(word[at]);
    printf("%d inputs\n", words - 1);
    return 0;
}
