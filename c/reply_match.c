/*
 * The reply test through the C header: the known answers, each rule and none, and the lengths at the ends. Then opcodes and addresses
 * in every combination, compared with a test written another way; these lines are counts.
 */
#include "clothbadger.h"

#include <stdio.h>

enum {
    NONE = CLOTHBADGER_RULE_NONE,
    ABORT = CLOTHBADGER_RULE_FEATURE_ABORT,
    WANTED = CLOTHBADGER_RULE_WANTED_OPCODE,
    PAIR = CLOTHBADGER_RULE_ARC_PAIR
};

static int wrong;

static void expect(const char *name, uint8_t want, const uint8_t *sent, size_t sent_length, const uint8_t *received,
                   size_t received_length, uint8_t wanted)
{
    uint8_t got = cec_reply_match(sent, sent_length, received, received_length, wanted);
    printf("%s: %u\n", name, got);
    wrong |= got != want;
}

/* Sent 40 and an opcode, and four bytes or fewer came. */
static void came(const char *name, uint8_t want, uint8_t opcode, uint8_t wanted, const uint8_t received[4], size_t length)
{
    expect(name, want, (const uint8_t[]){0x40, opcode}, 2, received, length, wanted);
}

static void known_answers(void)
{
    came("sent 40 8F wants 90, came 04 90 00", WANTED, 0x8F, 0x90, (const uint8_t[4]){0x04, 0x90, 0x00}, 3);
    came("04 00 8F 00", ABORT, 0x8F, 0x90, (const uint8_t[4]){0x04, 0x00, 0x8F, 0x00}, 4);
    came("04 00", NONE, 0x8F, 0x90, (const uint8_t[4]){0x04, 0x00}, 2);
    came("54 90 00", NONE, 0x8F, 0x90, (const uint8_t[4]){0x54, 0x90, 0x00}, 3);
    came("sent 40 C0 wants C1, came 04 C1", WANTED, 0xC0, 0xC1, (const uint8_t[4]){0x04, 0xC1}, 2);
    came("04 C2", PAIR, 0xC0, 0xC1, (const uint8_t[4]){0x04, 0xC2}, 2);
    came("04 00 C0", ABORT, 0xC0, 0xC1, (const uint8_t[4]){0x04, 0x00, 0xC0}, 3);
    came("04 90", NONE, 0xC0, 0xC1, (const uint8_t[4]){0x04, 0x90}, 2);
    came("sent 40 8F wants 00, came 04 00 8F", ABORT, 0x8F, 0x00, (const uint8_t[4]){0x04, 0x00, 0x8F}, 3);
    came("04 00 00", NONE, 0x8F, 0x00, (const uint8_t[4]){0x04, 0x00, 0x00}, 3);
}

/* A match needs 2 to 16 bytes on both sides, and one by Feature Abort 3 of those that came. */
static void lengths(uint8_t rule, uint8_t opcode, uint8_t third, size_t least)
{
    static const size_t tried[] = {0, 1, 2, 16, 17};
    const uint8_t sent[17] = {0x40, CEC_MSG_INITIATE_ARC};
    const uint8_t received[17] = {0x04, opcode, third};
    char name[64];
    for (size_t i = 0; i < 5; i++)
        for (size_t j = 0; j < 5; j++) {
            bool match = 2 <= tried[i] && tried[i] <= 16 && least <= tried[j] && tried[j] <= 16;
            snprintf(name, sizeof name, "sent %zu bytes, came %02X of %zu", tried[i], opcode, tried[j]);
            expect(name, match ? rule : NONE, sent, tried[i], received, tried[j], CEC_MSG_REPORT_ARC_INITIATED);
        }
}

static unsigned long counts[4], differences;

static void compare(uint8_t want, const uint8_t sent[2], const uint8_t *received, size_t length, uint8_t wanted)
{
    uint8_t got = cec_reply_match(sent, 2, received, length, wanted);
    counts[got & 3]++;
    differences += got != want;
}

static bool is_report(uint8_t opcode)
{
    return opcode == CEC_MSG_REPORT_ARC_INITIATED || opcode == CEC_MSG_REPORT_ARC_TERMINATED;
}

/* The rule by the opcodes alone, the other way round: what came decides first. */
static uint8_t expected(uint8_t sent, uint8_t opcode, size_t length, uint8_t third, uint8_t wanted)
{
    if (opcode == CEC_MSG_FEATURE_ABORT)
        return length >= 3 && third == sent ? ABORT : NONE;
    if (opcode == wanted)
        return WANTED;
    return sent == CEC_MSG_INITIATE_ARC && is_report(opcode) && is_report(wanted) ? PAIR : NONE;
}

static void say_counts(const char *name)
{
    printf("%s: none %lu, rule 1 %lu, rule 2 %lu, rule 3 %lu, %lu other than expected\n", name, counts[NONE], counts[ABORT],
           counts[WANTED], counts[PAIR], differences);
    wrong |= differences != 0;
    counts[NONE] = counts[ABORT] = counts[WANTED] = counts[PAIR] = differences = 0;
}

/* Ten opcodes as the one sent, the one that came, the third byte and the one wanted, in messages of 2 and 3 bytes. */
static void opcodes(void)
{
    static const uint8_t codes[] = {0x00, 0x01, 0x8F, 0x90, 0xC0, 0xC1, 0xC2, 0xC3, 0xFE, 0xFF};
    for (unsigned i = 0; i < 20000; i++) {
        uint8_t sent[] = {0x40, codes[i % 10]};
        uint8_t received[] = {0x04, codes[i / 10 % 10], codes[i / 100 % 10]};
        uint8_t wanted = codes[i / 1000 % 10];
        size_t length = 2 + i / 10000;
        compare(expected(sent[1], received[1], length, received[2], wanted), sent, received, length, wanted);
    }
    say_counts("opcodes");
}

/* Every pair of first bytes. */
static void addresses(uint8_t rule, uint8_t opcode, uint8_t third)
{
    for (unsigned i = 0; i < 65536; i++) {
        uint8_t sent[] = {(uint8_t)(i >> 8), CEC_MSG_INITIATE_ARC};
        uint8_t received[] = {(uint8_t)i, opcode, third};
        bool from = sent[0] % 16 == 15 || sent[0] % 16 == received[0] / 16;
        bool to = received[0] % 16 == 15 || received[0] % 16 == sent[0] / 16;
        compare(from && to ? rule : NONE, sent, received, 3, CEC_MSG_REPORT_ARC_INITIATED);
    }
    say_counts("addresses");
}

int main(void)
{
    known_answers();
    lengths(ABORT, CEC_MSG_FEATURE_ABORT, CEC_MSG_INITIATE_ARC, 3);
    lengths(WANTED, CEC_MSG_REPORT_ARC_INITIATED, 0, 2);
    lengths(PAIR, CEC_MSG_REPORT_ARC_TERMINATED, 0, 2);
    opcodes();
    addresses(ABORT, CEC_MSG_FEATURE_ABORT, CEC_MSG_INITIATE_ARC);
    addresses(WANTED, CEC_MSG_REPORT_ARC_INITIATED, 0);
    addresses(PAIR, CEC_MSG_REPORT_ARC_TERMINATED, 0);
    puts(wrong ? "wrong" : "as they should be");
    return wrong;
}
