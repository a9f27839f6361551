/* Gives each file that is named to the fuzz target, without libFuzzer. */
#include <stdint.h>
#include <stdio.h>

int LLVMFuzzerInitialize(int *count, char ***arguments);
int LLVMFuzzerTestOneInput(const uint8_t *data, size_t size);

int main(int count, char **arguments) {
    static uint8_t data[65536];

    LLVMFuzzerInitialize(&count, &arguments);
    for (int k = 1; k < count; k++) {
        FILE *file = fopen(arguments[k], "rb");
        if (file == NULL) {
            perror(arguments[k]);
            return 1;
        }
        LLVMFuzzerTestOneInput(data, fread(data, 1, sizeof data, file));
        fclose(file);
    }
    printf("%d inputs\n", count - 1);
    return 0;
}
