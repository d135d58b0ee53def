#include "instructions.h"

#include <stdio.h>
#include <string.h>

#include "assembler.h"

#define MOST_REGISTER 15u
#define MOST_DISPLACEMENT 4095u
#define MOST_SVC 255u

enum format {
    RR,         /* R1,R2 */
    RR_SVC,     /* I: the SVC's number in the place of R1 and R2 */
    RX,         /* R1,D2(X2,B2) */
    RS,         /* R1,R3,D2(B2) */
    S           /* D2(B2) */
};

/* Whether the second operand is in storage. */
enum access {
    NO_ACCESS,
    ACCESS
};

struct instruction {
    const char *name;
    uint16_t opcode;    /* one byte, or two where it is over 255 */
    enum format format;
    enum access access;
};

/* The listed instructions, and those whose interception is mandatory and that have a name of their own. */
static const struct instruction instructions[] = {
    {"BCR", 0x07, RR, NO_ACCESS},
    {"SVC", 0x0A, RR_SVC, NO_ACCESS},
    {"LR", 0x18, RR, NO_ACCESS},
    {"AR", 0x1A, RR, NO_ACCESS},
    {"SR", 0x1B, RR, NO_ACCESS},
    {"LA", 0x41, RX, NO_ACCESS},
    {"BC", 0x47, RX, NO_ACCESS},
    {"ST", 0x50, RX, ACCESS},
    {"L", 0x58, RX, ACCESS},
    {"LPSW", 0x82, S, ACCESS},
    {"DIAG", 0x83, RS, NO_ACCESS},
    {"SIGP", 0xAE, RS, NO_ACCESS},
    {"STCTL", 0xB6, RS, ACCESS},
    {"LCTL", 0xB7, RS, ACCESS},
    {"STCK", 0xB205, S, ACCESS},
    {"SPT", 0xB208, S, ACCESS},
    {"STPT", 0xB209, S, ACCESS},
    {"SIO", 0x9C00, S, NO_ACCESS},
    {"SIOF", 0x9C01, S, NO_ACCESS},
    {"TIO", 0x9D00, S, NO_ACCESS},
    {"CLRIO", 0x9D01, S, NO_ACCESS},
    {"HIO", 0x9E00, S, NO_ACCESS},
    {"HDV", 0x9E01, S, NO_ACCESS},
    {"TCH", 0x9F00, S, NO_ACCESS},
};

#define INSTRUCTIONS (sizeof instructions / sizeof *instructions)

/* The extended branches, with their mask: BE is BC 8, and with R at the end, BER is BCR 8. */
static const struct {
    const char *name;
    unsigned mask;
} branches[] = {
    {"B", 15},  {"NOP", 0}, {"BH", 2},   {"BL", 4},   {"BE", 8},   {"BNH", 13}, {"BNL", 11}, {"BNE", 7},
    {"BO", 1},  {"BP", 2},  {"BM", 4},   {"BZ", 8},   {"BNP", 13}, {"BNM", 11}, {"BNZ", 7},  {"BNO", 14},
};

#define BRANCHES (sizeof branches / sizeof *branches)
#define NO_MASK 99u

unsigned instruction_length(uint8_t first)
{
    return first < 0x40 ? 2 : first < 0xC0 ? 4 : 6;
}

/* Whether an instruction with this first byte is one of System/370's channels. */
static int is_of_channels(unsigned first)
{
    return first >= 0x9C && first <= 0x9F;
}

static const struct instruction *by_opcode(unsigned opcode)
{
    size_t i;

    for (i = 0; i < INSTRUCTIONS; i++)
        if (instructions[i].opcode == opcode)
            return &instructions[i];
    return NULL;
}

/* The instruction of a name. mask is that of an extended branch, else NO_MASK. */
static const struct instruction *by_name(const char *name, size_t length, unsigned *mask)
{
    size_t i;

    *mask = NO_MASK;
    for (i = 0; i < INSTRUCTIONS; i++)
        if (same_name(name, length, instructions[i].name))
            return &instructions[i];
    for (i = 0; i < BRANCHES; i++) {
        *mask = branches[i].mask;
        if (same_name(name, length, branches[i].name))
            return by_opcode(0x47);
        if (length > 1 && (name[length - 1] == 'R' || name[length - 1] == 'r') && same_name(name, length - 1, branches[i].name))
            return by_opcode(0x07);
    }
    return NULL;
}

static unsigned opcode_length(const struct instruction *i)
{
    return instruction_length((uint8_t)(i->opcode > 255 ? i->opcode >> 8 : i->opcode));
}

unsigned length_of_named(const char *name, size_t length)
{
    unsigned mask;
    const struct instruction *i = by_name(name, length, &mask);

    return i ? opcode_length(i) : 0;
}

int is_channel_name(const char *name, size_t length)
{
    unsigned mask;
    const struct instruction *i = by_name(name, length, &mask);

    return i != NULL && is_of_channels(i->opcode >> 8);
}

void list_instructions(char *line, size_t room)
{
    size_t i, used = 0;

    for (i = 0; i < INSTRUCTIONS && used < room; i++)
        used += (size_t)snprintf(line + used, room - used, "%s%s", i ? " " : "", instructions[i].name);
}

/* The disassembler */

static void show_data(const uint8_t *text, size_t length, char *line, size_t room)
{
    char hex[2 * MOST_TEXT + 1] = "";
    size_t i;

    for (i = 0; i < length && i < MOST_TEXT; i++)
        snprintf(hex + 2 * i, 3, "%02X", text[i]);
    snprintf(line, room, "DC    X'%s'", hex);
}

static void show_storage(const uint8_t *text, unsigned index, char *operand, size_t room)
{
    unsigned base = text[2] >> 4, displacement = (text[2] & 15u) << 8 | text[3];

    if (index != 0)
        snprintf(operand, room, "X'%X'(%u,%u)", displacement, index, base);
    else if (base != 0)
        snprintf(operand, room, "X'%X'(,%u)", displacement, base);
    else
        snprintf(operand, room, "X'%X'", displacement);
}

/* D2(B2), where no index register is. */
static void show_based(const uint8_t *text, char *operand, size_t room)
{
    unsigned base = text[2] >> 4, displacement = (text[2] & 15u) << 8 | text[3];

    if (base != 0)
        snprintf(operand, room, "X'%X'(%u)", displacement, base);
    else
        snprintf(operand, room, "X'%X'", displacement);
}

/* The instruction of a text of length bytes; NULL if it is not listed, or not whole. */
static const struct instruction *of_text(const uint8_t *text, size_t length, int system370)
{
    if (length == 0 || length < instruction_length(text[0]))
        return NULL;
    if (text[0] == 0xB2 || (system370 && is_of_channels(text[0])))
        return by_opcode((unsigned)text[0] << 8 | text[1]);
    return by_opcode(text[0]);
}

int operand_address(const uint8_t *text, size_t length, const uint32_t registers[16], uint32_t *address)
{
    const struct instruction *i = of_text(text, length, 0);
    unsigned index, base;

    if (i == NULL || i->access == NO_ACCESS)
        return 0;
    index = text[1] & 15u;
    base = text[2] >> 4;
    *address = (text[2] & 15u) << 8 | text[3];
    if (i->format == RX && index != 0)
        *address += registers[index];
    if (base != 0)
        *address += registers[base];
    return 1;
}

void disassemble(const uint8_t *text, size_t length, int system370, char *line, size_t room)
{
    const struct instruction *i = of_text(text, length, system370);
    char operand[32] = "";
    unsigned first, second;

    if (i == NULL) {
        show_data(text, length > 0 && length > instruction_length(text[0]) ? instruction_length(text[0]) : length, line, room);
        return;
    }
    first = text[1] >> 4;
    second = text[1] & 15u;
    if (i->format == RX)
        show_storage(text, second, operand, sizeof operand);
    else if (i->format == RS || i->format == S)
        show_based(text, operand, sizeof operand);
    if (i->format == RR)
        snprintf(line, room, "%-5s %u,%u", i->name, first, second);
    else if (i->format == RR_SVC)
        snprintf(line, room, "%-5s %u", i->name, text[1]);
    else if (i->format == RX)
        snprintf(line, room, "%-5s %u,%s", i->name, first, operand);
    else if (i->format == RS)
        snprintf(line, room, "%-5s %u,%u,%s", i->name, first, second, operand);
    else
        snprintf(line, room, "%-5s %s", i->name, operand);
}

/* The assembler */

/* What is being assembled: the operands that are left, and who knows labels. */
struct source {
    const char *at;
    const struct labels *labels;
    struct message *m;
};

struct storage_operand {
    unsigned index, base, displacement;
};

/* An operand without labels, at most `most`; what is its name in messages. */
static int parse_field(struct source *s, const char *what, unsigned most, unsigned *n)
{
    uint64_t count;

    if (parse_count(&s->at, what, most, &count, s->m))
        return -1;
    *n = (unsigned)count;
    return 0;
}

static int parse_comma(struct source *s, const char *form)
{
    s->at = skip_blanks(s->at);
    if (*s->at != ',')
        return wrong(s->m, "a comma is missing; the operands are %s", form);
    s->at++;
    return 0;
}

/* What stands in the parentheses of D(X,B), D(X), D(,B), or of D(B) where there is no index. based is set to one where there is
   a base. */
static int parse_registers(struct source *s, int has_index, struct storage_operand *o, int *based)
{
    const char *form = has_index ? "D(X,B), D(X) or D(,B)" : "D(B)";

    s->at = skip_blanks(s->at + 1);
    if (!has_index) {
        *based = 1;
        if (parse_field(s, "the base register", MOST_REGISTER, &o->base))
            return -1;
    } else {
        if (*s->at != ',' && parse_field(s, "the index register", MOST_REGISTER, &o->index))
            return -1;
        if (*s->at == ',') {
            *based = 1;
            s->at++;
            if (parse_field(s, "the base register", MOST_REGISTER, &o->base))
                return -1;
        }
    }
    if (*s->at != ')')
        return wrong(s->m, "a closing parenthesis is missing; write %s", form);
    s->at++;
    return 0;
}

/* D, D(X,B), D(X), D(,B), or D(B) where there is no index. A label without a base register takes that of a using, or none. */
static int parse_storage(struct source *s, int has_index, struct storage_operand *o)
{
    struct value d;
    int based = 0;

    memset(o, 0, sizeof *o);
    if (parse_expression(&s->at, s->labels, &d, s->m))
        return -1;
    s->at = skip_blanks(s->at);
    if (*s->at == '(' && parse_registers(s, has_index, o, &based))
        return -1;
    if (d.labels == 1 && !based && !d.negative) {
        if (s->labels->reach(s->labels->book, d.magnitude, &o->base, &o->displacement) == 0)
            return 0;
        return wrong(s->m, "no base register reaches the address X'%llX'; write \"using LABEL,REGISTER\" before it, with a "
                     "label at or up to 4095 bytes before that address", ull(d.magnitude));
    }
    if (d.negative || d.magnitude > MOST_DISPLACEMENT)
        return wrong(s->m, "the displacement is %s%llu (X'%llX'); it must be 0 to 4095 (X'FFF')", d.negative ? "-" : "",
                     ull(d.magnitude), ull(d.magnitude));
    o->displacement = (unsigned)d.magnitude;
    return 0;
}

static const char *first_name(const struct instruction *i)
{
    return i->opcode == 0x07 || i->opcode == 0x47 ? "the mask" : "the first register";
}

/* The form of the operands, for messages. */
static const char *form_of(const struct instruction *i, unsigned mask)
{
    int branch = i->opcode == 0x07 || i->opcode == 0x47;

    switch (i->format) {
    case RR:
        return mask != NO_MASK ? "R2" : branch ? "M1,R2" : "R1,R2";
    case RR_SVC:
        return "I";
    case RX:
        return mask != NO_MASK ? "D2(X2,B2)" : branch ? "M1,D2(X2,B2)" : "R1,D2(X2,B2)";
    case RS:
        return "R1,R3,D2(B2)";
    default:
        return "D2(B2)";
    }
}

/* The operands before the storage operand, or all of an instruction that has none: the second byte. */
static int parse_second_byte(struct source *s, const struct instruction *i, unsigned mask, uint8_t *byte)
{
    const char *form = form_of(i, mask);
    unsigned first = mask, second = 0;

    *byte = 0;
    if (i->format == S)
        return 0;
    if (i->format == RR_SVC) {
        if (parse_field(s, "the SVC's number", MOST_SVC, &second))
            return -1;
        *byte = (uint8_t)second;
        return 0;
    }
    if (mask == NO_MASK && (parse_field(s, first_name(i), MOST_REGISTER, &first) || parse_comma(s, form)))
        return -1;
    if (i->format == RR && parse_field(s, "the second register", MOST_REGISTER, &second))
        return -1;
    if (i->format == RS && (parse_field(s, "the third register", MOST_REGISTER, &second) || parse_comma(s, form)))
        return -1;
    *byte = (uint8_t)(first << 4 | second);
    return 0;
}

static int parse_operands(struct source *s, const struct instruction *i, unsigned mask, uint8_t *text)
{
    struct storage_operand o;

    s->at = skip_blanks(s->at);
    if (*s->at == '\0')
        return wrong(s->m, "the operands of %s are missing; they are %s", i->name, form_of(i, mask));
    if (parse_second_byte(s, i, mask, &text[1]))
        return -1;
    if (opcode_length(i) > 2) {
        if (parse_storage(s, i->format == RX, &o))
            return -1;
        text[1] |= (uint8_t)o.index;
        text[2] = (uint8_t)(o.base << 4 | o.displacement >> 8);
        text[3] = (uint8_t)o.displacement;
    }
    return nothing_left(s->at, s->m);
}

unsigned assemble_with_labels(const char *line, const struct labels *labels, uint8_t text[MOST_TEXT], struct message *m)
{
    const struct instruction *i;
    struct source s = {NULL, labels, m};
    size_t length;
    unsigned mask;
    char names[160];

    line = skip_blanks(line);
    length = name_length(line);
    i = by_name(line, length, &mask);
    if (i == NULL) {
        list_instructions(names, sizeof names);
        wrong(m, "%.*s is not an instruction; those are %s, and the extended branches",
              length ? (int)(length < 40 ? length : 40) : 1, *line ? line : "an empty line", names);
        return 0;
    }
    memset(text, 0, MOST_TEXT);
    s.at = line + length;
    if (parse_operands(&s, i, mask, text))
        return 0;
    text[0] = (uint8_t)(i->opcode > 255 ? i->opcode >> 8 : i->opcode);
    if (i->opcode > 255)
        text[1] = (uint8_t)i->opcode;
    return opcode_length(i);
}

unsigned assemble(const char *line, uint8_t text[MOST_TEXT], char *message, size_t room)
{
    struct message m = {""};
    unsigned length = assemble_with_labels(line, NULL, text, &m);

    snprintf(message, room, "%s", m.text);
    return length;
}
