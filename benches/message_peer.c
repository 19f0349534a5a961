/* Lists the request messages of a file, as `ccpp message FILE` does: a peer for its speed, and no part of the program. */
#include <inttypes.h>
#include <stdio.h>
#include <stdlib.h>
#include <string.h>

static const unsigned char *bytes;
static size_t length, at;
static char *out;
static size_t used;

static void fail(const char *fault, size_t place) {
    printf("no %s at %zu\n", fault, place);
    exit(9);
}

static uint64_t number(size_t width) {
    if (length - at < width) fail("Short", length);
    uint64_t n = 0;
    for (size_t i = 0; i < width; i++) n = n << 8 | bytes[at++];
    return n;
}

static void text(const char *s) {
    size_t n = strlen(s);
    memcpy(out + used, s, n);
    used += n;
}

static void decimal(uint64_t n) {
    char digits[20];
    int k = 0;
    do digits[k++] = '0' + n % 10; while (n /= 10);
    while (k) out[used++] = digits[--k];
}

static void value(int void_allowed) {
    size_t place = at;
    switch (number(1)) {
    case 0:
        if (!void_allowed) fail("BadTag", place);
        text("void");
        break;
    case 1: {
        int64_t n = (int64_t)number(8);
        if (n < 0) out[used++] = '-';
        decimal(n < 0 ? -(uint64_t)n : (uint64_t)n);
        break;
    }
    case 2:
        text("null");
        break;
    case 3:
        decimal(number(4)), out[used++] = ':';
        decimal(number(4)), out[used++] = ':';
        decimal(number(4));
        break;
    default:
        fail("BadTag", place);
    }
}

static void values(void) {
    size_t place = at;
    uint64_t count = number(1);
    if (count > 8) fail("BadCount", place);
    text(" (");
    for (uint64_t i = 0; i < count; i++) {
        if (i) text(", ");
        value(0);
    }
    text(")");
}

static void field(const char *name, size_t width) {
    text(name);
    decimal(number(width));
}

int main(int argc, char **argv) {
    static const char *names[] = {"", "call", "get", "put", "make", "reply", "cast"};
    if (argc != 2) return 2;
    FILE *file = fopen(argv[1], "rb");
    if (!file) return 10;
    fseek(file, 0, SEEK_END);
    length = ftell(file);
    rewind(file);
    unsigned char *all = malloc(length + 1);
    if (fread(all, 1, length, file) != length) return 6;
    bytes = all;
    out = malloc(16 * length + 64);
    uint64_t messages = 0;
    while (at < length) {
        size_t place = at;
        if (number(1) != 0x52) fail("BadMagic", place);
        if (number(1) != 1) fail("BadVersion", place + 1);
        uint64_t kind = number(1);
        if (kind < 1 || kind > 6) fail("BadKind", place + 2);
        text(names[kind]);
        field(" to ", 4), field(" from ", 4), field(" ticket ", 4);
        switch (kind) {
        case 1:
        case 6:
            field(" object ", 4), field(" handler ", 2), values();
            break;
        case 2:
            field(" object ", 4), field(" offset ", 4);
            break;
        case 3:
            field(" object ", 4), field(" offset ", 4), text(" "), value(0);
            break;
        case 4:
            field(" class ", 2), values();
            break;
        default:
            text(" "), value(1);
        }
        text("\n");
        messages++;
    }
    fwrite(out, 1, used, stdout);
    printf("== messages %" PRIu64 "\n", messages);
    return 0;
}
