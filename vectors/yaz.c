/* YAZ's ILL codec, as run.py and peers.py call it.

   `yaz FILE`: status 0 and what YAZ writes of the message that it read, or status 1 and `Refused`.
   `yaz IN OUT`: writes to OUT what YAZ writes of each message of IN.
   `yaz`: for each message on standard input, of which four octets give the length, one octet and an answer of the same form: 1 and what YAZ
   writes, or 0 and why it doesn't. */
#include <stdio.h>
#include <yaz/ill.h>
#include <yaz/odr.h>

static char octets[1 << 26];

/* Decodes a message and encodes it again. Returns what was written, or NULL. */
static const char *convert(ODR reader, ODR writer, int size, int *written) {
    ILL_APDU *apdu = 0;
    odr_setbuf(reader, octets, size, 0);
    if (!ill_APDU(reader, &apdu, 0, 0) || odr_offset(reader) != size || !ill_APDU(writer, &apdu, 0, 0)) return 0;
    return odr_getbuf(writer, written, 0);
}

static int convert_file(const char *name) {
    FILE *file = fopen(name, "rb");
    if (!file) return 2;
    int size = fread(octets, 1, sizeof octets, file), written;
    const char *output = convert(odr_createmem(ODR_DECODE), odr_createmem(ODR_ENCODE), size, &written);
    if (!output) return fputs("Refused\n", stderr), 1;
    return fwrite(output, 1, written, stdout) == (size_t)written ? 0 : 3;
}

/* Converts messages one after another, in the memory of one reader and one writer. */
static int convert_stream(const char *in, const char *out) {
    FILE *from = fopen(in, "rb"), *to = fopen(out, "wb");
    if (!from || !to) return 2;
    int size = fread(octets, 1, sizeof octets, from), written;
    ODR reader = odr_createmem(ODR_DECODE), writer = odr_createmem(ODR_ENCODE);
    for (int at = 0; at < size; at += odr_offset(reader)) {
        ILL_APDU *apdu = 0;
        odr_reset(reader);
        odr_reset(writer);
        odr_setbuf(reader, octets + at, size - at, 0);
        if (!ill_APDU(reader, &apdu, 0, 0) || !ill_APDU(writer, &apdu, 0, 0)) return fputs("Refused\n", stderr), 1;
        const char *output = odr_getbuf(writer, &written, 0);
        if (fwrite(output, 1, written, to) != (size_t)written) return 3;
    }
    return fclose(to) ? 3 : 0;
}

static void put_answer(int is_read, const char *answer, int size) {
    unsigned char head[5] = {is_read, size >> 24, size >> 16, size >> 8, size};
    fwrite(head, 1, sizeof head, stdout);
    fwrite(answer, 1, size, stdout);
    fflush(stdout);
}

static int convert_all(void) {
    unsigned char head[4];
    while (fread(head, 1, sizeof head, stdin) == sizeof head) {
        int size = head[0] << 24 | head[1] << 16 | head[2] << 8 | head[3], written;
        if ((size_t)size > sizeof octets || fread(octets, 1, size, stdin) != (size_t)size) return 2;
        ODR reader = odr_createmem(ODR_DECODE), writer = odr_createmem(ODR_ENCODE);
        const char *output = convert(reader, writer, size, &written);
        if (output)
            put_answer(1, output, written);
        else {
            char why[256];
            put_answer(0, why, snprintf(why, sizeof why, "%s %s", odr_errmsg(odr_geterror(reader)), odr_getelement(reader)));
        }
        odr_destroy(reader);
        odr_destroy(writer);
    }
    return 0;
}

int main(int count, char **words) {
    if (count == 3) return convert_stream(words[1], words[2]);
    return count == 2 ? convert_file(words[1]) : convert_all();
}
