/* Lowers the ticket on standard input: prints the listing, or refused,N,L.
 *
 * cc -Iinclude examples/lower.c -L../../target/staticlib -lwesknuft -o lower-c
 */
#include <inttypes.h>
#include <stdio.h>

#include "wesknuft_lower.h"

static uint8_t ticket[65537];
static uint8_t buffer[65536];
static struct wesknuft_room room;

int main(void) {
    size_t length;
    uint64_t number, line;
    /* One byte over the limit is enough to have an overlong ticket refused. */
    size_t got = fread(ticket, 1, sizeof ticket, stdin);
    if (!wesknuft_lower(ticket, got, buffer, sizeof buffer, &room, &length, &number, &line)) {
        printf("refused,%" PRIu64 ",%" PRIu64 "\n", number, line);
        return 1;
    }
    return fwrite(buffer, 1, length, stdout) == length ? 0 : 2;
}
