/* Tests of the assembler and the disassembler: texts and bytes worked out by hand, messages, and the way back from every
   instruction. */
#include <stdio.h>
#include <string.h>

#include "../instructions.h"

static unsigned tests, failures;

static void expect(int good, const char *what, const char *got)
{
    tests++;
    if (!good) {
        failures++;
        printf("instructions_test: %s: got %s\n", what, got);
    }
}

/* A text, the bytes that it is assembled to, and what they are disassembled to; NULL if that is the text. */
static const struct {
    const char *text, *hex, *back;
} forms[] = {
    {"BCR   15,14", "07fe", NULL},
    {"SVC   255", "0aff", NULL},
    {"SVC   X'11'", "0a11", "SVC   17"},
    {"LR    1,2", "1812", NULL},
    {"AR    15,0", "1af0", NULL},
    {"SR    0,15", "1b0f", NULL},
    {"LA    1,X'FFF'(2,3)", "41123fff", NULL},
    {"LA    1,4095(2,3)", "41123fff", "LA    1,X'FFF'(2,3)"},
    {"LA    1,0xabc(,3)", "41103abc", "LA    1,X'ABC'(,3)"},
    {"LA    1,8(2)", "41120008", "LA    1,X'8'(2,0)"},
    {"LA    1,8", "41100008", "LA    1,X'8'"},
    {"LA    1,X'8'(0,4)", "41104008", "LA    1,X'8'(,4)"},
    {"BC    15,X'200'(1,2)", "47f12200", NULL},
    {"BC    B'1000',X'200'", "47800200", "BC    8,X'200'"},
    {"ST    14,X'10'(,13)", "50e0d010", NULL},
    {"L     1,X'10'(2,3)", "58123010", NULL},
    {"LPSW  X'68'", "82000068", NULL},
    {"LPSW  X'68'(1)", "82001068", NULL},
    {"DIAG  1,2,X'3'(4)", "83124003", NULL},
    {"SIGP  1,2,X'3'(4)", "ae124003", NULL},
    {"STCTL 0,15,X'100'(12)", "b60fc100", NULL},
    {"LCTL  0,0,X'228'", "b7000228", NULL},
    {"STCK  X'8'(1)", "b2051008", NULL},
    {"SPT   X'8'(15)", "b208f008", NULL},
    {"STPT  X'FF8'", "b2090ff8", NULL},
    {"SIO   X'190'", "9c000190", NULL},
    {"SIOF  X'0'(1)", "9c011000", NULL},
    {"TIO   X'190'", "9d000190", NULL},
    {"CLRIO X'190'", "9d010190", NULL},
    {"HIO   X'190'", "9e000190", NULL},
    {"HDV   X'190'", "9e010190", NULL},
    {"TCH   X'100'(15)", "9f00f100", NULL},
    {"B     X'200'", "47f00200", "BC    15,X'200'"},
    {"NOP   0", "47000000", "BC    0,X'0'"},
    {"BR    14", "07fe", "BCR   15,14"},
    {"NOPR  7", "0707", "BCR   0,7"},
    {"BH    1(2,3)", "47223001", "BC    2,X'1'(2,3)"},
    {"BL    1", "47400001", "BC    4,X'1'"},
    {"BE    1", "47800001", "BC    8,X'1'"},
    {"BNH   1", "47d00001", "BC    13,X'1'"},
    {"BNL   1", "47b00001", "BC    11,X'1'"},
    {"BNE   1", "47700001", "BC    7,X'1'"},
    {"BO    1", "47100001", "BC    1,X'1'"},
    {"BP    1", "47200001", "BC    2,X'1'"},
    {"BM    1", "47400001", "BC    4,X'1'"},
    {"BZ    1", "47800001", "BC    8,X'1'"},
    {"BNP   1", "47d00001", "BC    13,X'1'"},
    {"BNM   1", "47b00001", "BC    11,X'1'"},
    {"BNZ   1", "47700001", "BC    7,X'1'"},
    {"BNO   1", "47e00001", "BC    14,X'1'"},
    {"BHR   1", "0721", "BCR   2,1"},
    {"BLR   1", "0741", "BCR   4,1"},
    {"BER   1", "0781", "BCR   8,1"},
    {"BNHR  1", "07d1", "BCR   13,1"},
    {"BNLR  1", "07b1", "BCR   11,1"},
    {"BNER  1", "0771", "BCR   7,1"},
    {"BOR   1", "0711", "BCR   1,1"},
    {"BPR   1", "0721", "BCR   2,1"},
    {"BMR   1", "0741", "BCR   4,1"},
    {"BZR   1", "0781", "BCR   8,1"},
    {"BNPR  1", "07d1", "BCR   13,1"},
    {"BNMR  1", "07b1", "BCR   11,1"},
    {"BNZR  1", "0771", "BCR   7,1"},
    {"BNOR  1", "07e1", "BCR   14,1"},
    {"  ar\t1 , 2  ", "1a12", "AR    1,2"},
    {"l 1 , x'10' ( 2 , 3 )", "58123010", "L     1,X'10'(2,3)"},
    {"L 1,X'18'-8+1", "58100011", "L     1,X'11'"},
};

/* A text that is wrong, and a part of its message. */
static const struct {
    const char *text, *message;
} faults[] = {
    {"", "not an instruction"},
    {"MVC 1,2", "MVC is not an instruction"},
    {"1,2", "not an instruction"},
    {"LR", "the operands of LR are missing; they are R1,R2"},
    {"BR", "they are R2"},
    {"B", "they are D2(X2,B2)"},
    {"LR 1", "a comma is missing; the operands are R1,R2"},
    {"BC 1", "the operands are M1,D2(X2,B2)"},
    {"LR 16,2", "the first register is 16 (X'10'), and may be at most 15"},
    {"LR 1,16", "the second register is 16"},
    {"LR 1,-1", "the second register must not be negative"},
    {"BC 16,0", "the mask is 16"},
    {"LCTL 0,16,0", "the third register is 16"},
    {"SVC 256", "the SVC's number is 256"},
    {"L 1,4096", "the displacement is 4096 (X'1000'); it must be 0 to 4095"},
    {"L 1,0-1", "the displacement is -1"},
    {"L 1,0(16,1)", "the index register is 16"},
    {"L 1,0(1,16)", "the base register is 16"},
    {"L 1,0(1,", "missing at the end of the line"},
    {"L 1,0(1,2", "a closing parenthesis is missing; write D(X,B), D(X) or D(,B)"},
    {"LPSW 0(1,2)", "a closing parenthesis is missing; write D(B)"},
    {"LPSW 0(,2)", "a number is missing before \",2)\""},
    {"L 1,", "a number is missing at the end of the line"},
    {"L 1,loop", "loop is not a number"},
    {"LR 1,2 add", "\"add\" is too much at the end of the line; a comment starts with #"},
    {"L 1,2FF", "2FF is not a decimal number; write hex as X'1F' or 0x1F"},
    {"L 1,X'2G'", "X'2G' is not closed, or has a wrong digit"},
    {"L 1,X''", "hex digits are missing"},
    {"L 1,0x", "hex digits are missing"},
    {"L 1,B'12'", "is not closed, or has a wrong digit"},
    {"L 1,99999999999999999999", "too large; a number has at most 64 bits"},
    {"L 1,X'FFFFFFFFFFFFFFFF'+1", "the sum is too large"},
    {"L 1,1.5", "has a fraction; only amounts of time may"},
};

static void to_hex(const uint8_t *bytes, unsigned length, char *hex)
{
    unsigned i;

    hex[0] = '\0';
    for (i = 0; i < length; i++)
        snprintf(hex + 2 * i, 3, "%02x", bytes[i]);
}

static void test_forms(void)
{
    char hex[2 * MOST_TEXT + 1], line[80], message[300];
    uint8_t text[MOST_TEXT];
    unsigned length;
    size_t i;

    for (i = 0; i < sizeof forms / sizeof *forms; i++) {
        length = assemble(forms[i].text, text, message, sizeof message);
        to_hex(text, length, hex);
        expect(length > 0 && strcmp(hex, forms[i].hex) == 0, forms[i].text, length > 0 ? hex : message);
        if (length == 0)
            continue;
        disassemble(text, length, 1, line, sizeof line);
        expect(strcmp(line, forms[i].back ? forms[i].back : forms[i].text) == 0, forms[i].text, line);
    }
}

static void test_faults(void)
{
    char message[300];
    uint8_t text[MOST_TEXT];
    size_t i;

    for (i = 0; i < sizeof faults / sizeof *faults; i++) {
        message[0] = '\0';
        expect(assemble(faults[i].text, text, message, sizeof message) == 0, faults[i].text, "no fault");
        expect(strstr(message, faults[i].message) != NULL, faults[i].text, message);
    }
}

/* Disassembled and assembled again, an instruction is what it was, but for byte 1 of LPSW, which the machine ignores. */
static void there_and_back(const uint8_t *bytes, unsigned length)
{
    char line[80], message[300];
    uint8_t text[MOST_TEXT];

    disassemble(bytes, length, 1, line, sizeof line);
    if (strncmp(line, "DC", 2) == 0)
        return;
    if (assemble(line, text, message, sizeof message) != length)
        expect(0, line, message);
    else if (bytes[0] == 0x82)
        expect(memcmp(text + 2, bytes + 2, 2) == 0, line, "other bytes");
    else
        expect(memcmp(text, bytes, length) == 0, line, "other bytes");
}

/* Every first and second byte, every base register and displacements at the edges. */
static void test_there_and_back(void)
{
    static const unsigned displacements[] = {0, 9, 256, 4095};
    unsigned head, base, d;

    for (head = 0; head < 0x10000; head++) {
        uint8_t bytes[4] = {(uint8_t)(head >> 8), (uint8_t)head, 0, 0};

        if (instruction_length(bytes[0]) == 2)
            there_and_back(bytes, 2);
        for (base = 0; instruction_length(bytes[0]) == 4 && base < 16; base++)
            for (d = 0; d < sizeof displacements / sizeof *displacements; d++) {
                bytes[2] = (uint8_t)(base << 4 | displacements[d] >> 8);
                bytes[3] = (uint8_t)displacements[d];
                there_and_back(bytes, 4);
            }
    }
}

/* What is no instruction, or not all of one, is shown as data. */
static void test_data(void)
{
    static const struct {
        const char *bytes;
        unsigned length;
        const char *line;
    } data[] = {
        {"\x00\x00", 2, "DC    X'0000'"},
        {"\x58\x12\x30", 3, "DC    X'581230'"},
        {"\x18", 1, "DC    X'18'"},
        {"", 0, "DC    X''"},
        {"\xb2\x30\x12\x34", 4, "DC    X'B2301234'"},
        {"\x9c\x00\x12\x34", 4, "DC    X'9C001234'"},
        {"\xd2\x01\x02\x03\x04\x05", 6, "DC    X'D20102030405'"},
        {"\x19\x12\x18\x12", 4, "DC    X'1912'"},
        {"\x18\x12\x18\x13", 4, "LR    1,2"},
        {"\xff\x00\x00\x00\x00\x00\x00", 7, "DC    X'FF0000000000'"},
    };
    char line[80];
    size_t i;

    for (i = 0; i < sizeof data / sizeof *data; i++) {
        disassemble((const uint8_t *)data[i].bytes, data[i].length, 0, line, sizeof line);
        expect(strcmp(line, data[i].line) == 0, data[i].line, line);
    }
    disassemble((const uint8_t *)"\x9c\x05\x12\x34", 4, 1, line, sizeof line);
    expect(strcmp(line, "DC    X'9C051234'") == 0, "9C05 in System/370", line);
    disassemble((const uint8_t *)"\x58\x12\x30\x10", 4, 0, line, 8);
    expect(strcmp(line, "L     1") == 0, "a line of eight bytes", line);
}

int main(void)
{
    test_forms();
    test_faults();
    test_there_and_back();
    test_data();
    printf("instructions_test: %u tests, %u failed\n", tests, failures);
    return failures > 0;
}
