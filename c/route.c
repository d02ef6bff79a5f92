/*
 * Every address, well formed or not, asked against each of a hundred, in both orders. The answers are compared with those of a
 * test written another way: on the two addresses as text, by their common beginning. All lines but the last are counts.
 */
#include "clothbadger.h"

#include <errno.h>
#include <inttypes.h>
#include <stdio.h>
#include <string.h>

static unsigned long asked, refused, on_path, differences;

/* An address as text without the zeros at its end: "21" for 2.1.0.0. */
static void write_text(char text[5], unsigned address)
{
    snprintf(text, 5, "%04x", address);
    for (size_t end = 4; end > 0 && text[end - 1] == '0'; end--)
        text[end - 1] = '\0';
}

static bool is_address(const char *text)
{
    return strchr(text, '0') == NULL && strcmp(text, "ffff") != 0;
}

static uint8_t digit(char letter)
{
    return (uint8_t)(letter <= '9' ? letter - '0' : letter - 'a' + 10);
}

static struct cec_route_answer expected(const char *first, const char *second)
{
    struct cec_route_answer answer = {0};
    size_t same = 0;
    if (!is_address(first) || !is_address(second)) {
        answer.error = EINVAL;
        return answer;
    }
    for (; first[same] != '\0' && first[same] == second[same]; same++)
        answer.ancestor = (uint16_t)(answer.ancestor | digit(first[same]) << (12 - 4 * same));
    answer.on_path = first[same] == '\0';
    answer.port = answer.on_path && second[same] != '\0' ? digit(second[same]) : 0;
    return answer;
}

static void ask(unsigned first, unsigned second, const char *first_text, const char *second_text)
{
    struct cec_route_answer theirs = expected(first_text, second_text);
    struct cec_route_answer ours = cec_route((uint16_t)first, (uint16_t)second);
    asked++;
    refused += ours.error != 0;
    on_path += ours.on_path;
    differences += ours.error != theirs.error || ours.ancestor != theirs.ancestor || ours.on_path != theirs.on_path
                   || ours.port != theirs.port;
}

/* A hundred addresses of every depth, spread over all; of those without zeros at the end some are ill formed. */
static unsigned chosen(unsigned i)
{
    unsigned spread = (i * 40503 + 0x1144) & 0xFFFF;
    if (i < 16)
        return i << 12;
    if (i < 40)
        return spread & 0xFF00;
    if (i < 60)
        return spread & 0xFFF0;
    return i == 99 ? CEC_PHYS_ADDR_INVALID : spread;
}

int main(void)
{
    char texts[2][5];
    for (unsigned i = 0; i < 100; i++) {
        write_text(texts[1], chosen(i));
        for (unsigned address = 0; address <= 0xFFFF; address++) {
            write_text(texts[0], address);
            ask(address, chosen(i), texts[0], texts[1]);
            ask(chosen(i), address, texts[1], texts[0]);
        }
    }
    printf("asked %lu\nrefused %lu\non the path %lu\ndifferences %lu\n", asked, refused, on_path, differences);
    return 0;
}
