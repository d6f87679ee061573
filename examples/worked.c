/* The whole case, from C: two stations ten bit times apart, each with a frame for the other at time 0.
 *
 *     cc worked.c $(pkg-config --cflags --libs wisavulome) -o worked && ./worked
 */
#include <stdio.h>
#include <string.h>
#include <wisavulome.h>

#define DATA 46 /* octets of each frame's data, all 0 */

/* the sheet: map 00, N 2, then position and address of each station */
static const unsigned char sheet[] = {0x00, 0x02, 0x00, 0x02, 0, 0, 0, 0, 0x01, 0x0A, 0x02, 0, 0, 0, 0, 0x02};

/* D 1, draws 0 and 1, two offers */
static const unsigned char draws[] = {0x01, 0, 0, 0, 1, 0, 2};

/* time, station, destination, value 0800, size */
static const unsigned char offers[2][15] = {
    {0, 0, 0, 0, 0, 0x02, 0, 0, 0, 0, 0x02, 0x08, 0x00, 0, DATA},
    {0, 0, 0, 0, 1, 0x02, 0, 0, 0, 0, 0x01, 0x08, 0x00, 0, DATA}};

static const unsigned char times[] = {0x00, 0x00, 0x05, 0xDC};

static unsigned char input[256];
static unsigned char area[WISAVULOME_AREA];
static unsigned char text[4096];

/* Puts octets at the end of the input. */
static size_t put(size_t at, const unsigned char *octets, size_t count)
{
    memcpy(input + at, octets, count);
    return at + count;
}

int main(void)
{
    size_t size = 0;
    int i;
    uint32_t reply;

    size = put(size, sheet, sizeof sheet);
    size = put(size, draws, sizeof draws);
    for (i = 0; i < 2; i++)
        size = put(size, offers[i], sizeof offers[i]) + DATA;
    size = put(size, times, sizeof times);

    reply = wisavulome_print(input, size, area, sizeof area, text, sizeof text);
    if (reply >= WISAVULOME_REFUSAL) {
        fprintf(stderr, "refused %lu\n", (unsigned long)(reply - WISAVULOME_REFUSAL));
        return 2;
    }
    return fwrite(text, 1, reply, stdout) == reply && fflush(stdout) == 0 ? 0 : 3;
}
