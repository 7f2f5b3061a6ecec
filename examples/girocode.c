/* A host in C for girocodes: says why the payload on standard input is refused, or who is paid how much.

       (cd crates/giro_capi && rt lib)
       cc -I include examples/girocode.c crates/giro_capi/out/libgiro_capi.a -o girocode
       ./girocode < examples/girocode.txt */

#include <stdint.h>
#include <stdio.h>

#include "qrbill.h"

static void write_line(const char *name, const uint8_t *payload, size_t length, uint32_t line)
{
    const uint32_t place = girocode_line(payload, length, line);
    printf("%s %.*s\n", name, (int)(place % 1000), (const char *)payload + place / 1000);
}

int main(void)
{
    static uint8_t payload[GIROCODE_MOST_BYTES + 1]; /* one byte more, so that a longer one is told */
    const size_t length = fread(payload, 1, sizeof payload, stdin);
    const uint32_t answer = girocode_read(payload, length);
    if (ferror(stdin))
        return 2; /* what came is not whole */
    if (answer >= 1000) {
        printf("refused %u line %u\n", answer / 1000, answer % 1000);
        return 1;
    }
    write_line("to", payload, length, 6);
    write_line("account", payload, length, 7);
    write_line("amount", payload, length, 8);
    return 0;
}
