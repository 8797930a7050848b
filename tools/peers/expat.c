/* How fast expat reads a file that is in memory: the elements are counted, and nothing else is kept. */
#include <expat.h>
#include <stdio.h>
#include <stdlib.h>
#include <time.h>

static size_t elements;

static void started(void *data, const char *name, const char **attributes) {
    (void)data; (void)name; (void)attributes;
    elements++;
}

static void ended(void *data, const char *name) {
    (void)data; (void)name;
}

int main(int argc, char **argv) {
    if (argc != 2) return 2;
    FILE *f = fopen(argv[1], "rb");
    if (!f) return 2;
    fseek(f, 0, SEEK_END);
    size_t size = (size_t)ftell(f);
    rewind(f);
    char *bytes = malloc(size);
    if (!bytes || fread(bytes, 1, size, f) != size) return 2;
    XML_Parser parser = XML_ParserCreate(NULL);
    XML_SetElementHandler(parser, started, ended);
    struct timespec a, b;
    clock_gettime(CLOCK_MONOTONIC, &a);
    enum XML_Status status = XML_Parse(parser, bytes, (int)size, 1);
    clock_gettime(CLOCK_MONOTONIC, &b);
    double s = (double)(b.tv_sec - a.tv_sec) + 1e-9 * (double)(b.tv_nsec - a.tv_nsec);
    printf("expat %s: %zu elements, %.0f MB/s\n", status == XML_STATUS_OK ? "ok" : "error", elements, (double)size / s / 1e6);
    return 0;
}
