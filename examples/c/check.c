/* Prints the code of each message on standard input, one line a message: a kind and octets in hexadecimal, as `gx check`
 * reads them. Blank lines and lines that begin with # are skipped. */
#include "gx.h"

#include <ctype.h>
#include <stdio.h>
#include <string.h>

static uint8_t octets[1 << 16];

static int digit(int c)
{
    if (c >= '0' && c <= '9')
        return c - '0';
    c = tolower(c);
    return c >= 'a' && c <= 'f' ? c - 'a' + 10 : -1;
}

/* The octets of a text in hexadecimal, or -1 where it is none. */
static long decode(const char *text)
{
    size_t digits = 0;
    if (strcmp(text, "-") == 0)
        return 0;
    for (; *text != '\0'; text++) {
        int d = digit((unsigned char)*text);
        if (*text == ' ')
            continue;
        if (d < 0 || digits / 2 >= sizeof octets)
            return -1;
        octets[digits / 2] = (uint8_t)(digits % 2 ? octets[digits / 2] | d : d << 4);
        digits++;
    }
    return digits % 2 ? -1 : (long)(digits / 2);
}

static uint32_t kind_of(const char *word)
{
    if (strcmp(word, "report") == 0)
        return GX_REPORT;
    if (strcmp(word, "answer") == 0)
        return GX_ANSWER;
    return strcmp(word, "command") == 0 ? GX_COMMAND : 0;
}

int main(void)
{
    static char line[1 << 18];
    while (fgets(line, sizeof line, stdin) != NULL) {
        char *rest;
        long length;
        line[strcspn(line, "\r\n")] = '\0';
        if (line[0] == '\0' || line[0] == '#')
            continue;
        rest = strchr(line, ' ');
        if (rest != NULL)
            *rest++ = '\0';
        length = decode(rest == NULL ? "" : rest);
        if (kind_of(line) == 0 || length < 0)
            puts("error");
        else
            printf("%u\n", (unsigned)gx_check(kind_of(line), octets, (size_t)length));
    }
    return 0;
}
