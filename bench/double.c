/* The plain C program that bench/matrix compares with: reads `matrix N` and N numbers by strtoll, and writes
   their doubles by sprintf. */
#include <stdio.h>
#include <stdlib.h>

int main(int argc, char **argv) {
    FILE *file = argc > 1 ? fopen(argv[1], "rb") : NULL;
    if (!file) return 1;
    fseek(file, 0, SEEK_END);
    long length = ftell(file);
    rewind(file);
    char *text = malloc(length + 1);
    if (!text || fread(text, 1, length, file) != (size_t)length) return 1;
    text[length] = 0;
    char *at;
    long long count = strtoll(text + 7, &at, 10);
    long long *cells = malloc(count * sizeof *cells + 1);
    char *out = malloc(count * 21 + 32);
    if (!cells || !out) return 1;
    for (long long i = 0; i < count; i++) cells[i] = strtoll(at, &at, 10);
    char *end = out + sprintf(out, "matrix %lld\n", count);
    for (long long i = 0; i < count; i++) end += sprintf(end, i + 1 < count ? "%lld " : "%lld\n", cells[i] + cells[i]);
    return fwrite(out, 1, end - out, stdout) != (size_t)(end - out);
}
