/* drevokas make: a case file from its text form. */
#include <errno.h>
#include <stdio.h>
#include <stdlib.h>
#include <string.h>
#include <sys/stat.h>
#include <unistd.h>

#include "arguments.h"
#include "command.h"
#include "text_form.h"

static const char help[] =
    "Builds a case file from the text form in TEXT, where - is standard input. The case file goes to OUT,\n"
    "or to standard output if that is no terminal. Nothing is written if the text has an error, or if it\n"
    "says nothing. A text has 1 MiB (1048576 bytes) at most.\n"
    "\n"
    "  -o OUT             where the case file goes\n"
    "  --from CASE        starts from this case file: what the text does not say stays as it is there\n"
    "\n"
    "A line is a setting, a directive, or an instruction or data, perhaps with a label before it.\n"
    "# starts a comment, and so does * where a line starts. Capital and small letters are the same.\n"
    "Numbers are decimal unless marked: X'1F' and 0x1F are hex, B'101' is binary. 20us, 1.5ms and 2s are\n"
    "clock units (1/4096 us). A value may be negative, and may be a sum with labels: start, end-start,\n"
    "table+8. Bit 0 is leftmost.\n"
    "An address (A, B, OFFSET, and the value of prefix, address and psw.address) may also be hex digits\n"
    "that start with a digit and have a letter: 1F0. 10 and over without mark or letter, as 200, could\n"
    "be decimal or hex, and are refused, but in a sum they are decimal.\n"
    "\n"
    "Settings, in any order, each once; what holds without them is in parentheses\n"
    "  designation = N    host segment-table designation (that of \"host tables\", else 0)\n"
    "  clock = N          host clock (0)\n"
    "  time = N           time per unit, 1 to 1048576, else a run is refused (1us)\n"
    "  budget = N         units, 0 to 65535 (65535)\n"
    "  frames = N         frames of host storage, 1 to 8 (8)\n"
    "  FIELD = N          a field of the record: length (200) version (1) interventions mode (8)\n"
    "                     interceptions lctl prefix origin extent (1) psw timer comparator epoch svc svc1\n"
    "                     svc2 svc3 code ilc interruption address text reserved, cr0-cr15, gr0-gr15 (0);\n"
    "                     with length 208 (version 2) also request reserved2 residue (0)\n"
    "  FIELD.bitN = N     one bit of a field: cr0.bit21 = 1\n"
    "  psw.PART = N       a part of the PSW: per dat io external key check wait problem space cc mask\n"
    "                     address, and amode, 24 or 31 (bit 12 is one, amode is 31, all else zero)\n"
    "  key F[-F] = N      storage keys of frames (0)\n"
    "  mode.system = 370  a System/370 guest, in the record of 208 bytes; xa: a 370-XA guest\n"
    "  mode.inactive = 1  its interval timer is inactive; request.t = 1: its interruption is requested\n"
    "  interval = N       the interval timer's word, at guest real 80, by the prefix and the page map\n"
    "A System/370 PSW is in BC form, of zeros, and has the parts channels (of 6 bits) channel0-channel5\n"
    "io external key ec check wait problem code ilc cc mask address. With ec = 1 it is in EC form: per\n"
    "dat io external key ec check wait problem space cc mask address.\n";

static const char help_on_lines[] =
    "\n"
    "Page maps, in any order; A is the first address of a page, B the last of that page or a later one\n"
    "  host tables at frame F     makes the host's tables from frame F on, and the designation\n"
    "  map guest A[-B] to frame F[-F] [protected|invalid]\n"
    "      guest absolute pages, for the host's tables\n"
    "  map guest A[-B] invalid    pages without a frame\n"
    "  guest tables at real A     makes the guest's tables there, CR1, and CR0 bits 8-12 if they are 0\n"
    "  map virtual A[-B] to real A [protected|invalid]\n"
    "      guest virtual pages, for the guest's tables\n"
    "  map virtual A[-B] invalid  pages without a real address\n"
    "With --from, \"map\" alone changes its page's entry in the tables that are there (\"invalid\" alone sets\n"
    "its bit 21), and \"tables\" makes new tables, with every page entry of the old ones.\n"
    "\n"
    "Contents, in their order\n"
    "  at guest A                 what follows goes to this guest absolute address,\n"
    "  at real A                  or guest real address, by the prefix,\n"
    "  at virtual A               or guest virtual address, by the guest's tables,\n"
    "  at frame F [OFFSET]        or into a frame itself, where labels cannot be\n"
    "  [LABEL] INSTRUCTION OPERANDS\n"
    "      LR AR SR BCR SVC LA BC ST L LPSW STCTL LCTL STCK SPT STPT DIAG SIGP, those of System/370's\n"
    "      channels SIO SIOF TIO CLRIO HIO HDV TCH, and the extended branches B BR NOP NOPR BE BNE BH BL\n"
    "      BO BP BM BZ BER ...\n"
    "  [LABEL] bytes X'0102 03'   bytes in hex; also written DC\n"
    "  [LABEL] half N,...         numbers of 2 bytes; word: of 4; double: of 8\n"
    "  [LABEL] psw PART=N, ...    a PSW of 8 bytes: psw dat=1, address=start\n"
    "  [LABEL] space N            N bytes of zeros\n"
    "  align N                    goes on at the next multiple of N\n"
    "  using A,R                  from here on, labels from A to A+4095 have base register R\n"
    "  drop R                     no longer so\n"
    "A storage operand is D, D(X,B), D(X) or D(,B), and D or D(B) where there is no index. D is a\n"
    "displacement, or a label that is below 4096 or that a \"using\" reaches.\n"
    "\n"
    "Exit status: 0, 1 if CASE is not a case file, 2 for bad usage, an error in the text, or a file that\n"
    "cannot be read or written.\n";

static const struct usage usage = {"make TEXT [--from CASE] [-o OUT]", help, help_on_lines, 1, 0, {"-o", "--from"}};

/* ---- errors ---- */

void note_fault(struct text_form *f, unsigned line, const struct message *m)
{
    unsigned i;

    for (i = 0; i < f->fault_count && i < MOST_ERRORS; i++)
        if (f->faults[i].line == line)
            return;
    if (f->fault_count < MOST_ERRORS) {
        f->faults[f->fault_count].line = line;
        f->faults[f->fault_count].m = *m;
    }
    f->fault_count++;
}

int enough_faults(const struct text_form *f)
{
    return f->fault_count > MOST_ERRORS;
}

static int by_line(const void *a, const void *b)
{
    unsigned first = ((const struct fault *)a)->line, second = ((const struct fault *)b)->line;

    return (first > second) - (first < second);
}

static int report(struct text_form *f, const char *name)
{
    unsigned kept = enough_faults(f) ? MOST_ERRORS : f->fault_count, i;

    qsort(f->faults, kept, sizeof *f->faults, by_line);
    for (i = 0; i < kept; i++)
        fprintf(stderr, "%s:%u: %s\n", name, f->faults[i].line, f->faults[i].m.text);
    if (enough_faults(f))
        complain("more than %u errors; no case file is written", MOST_ERRORS);
    else
        complain("%u error%s; no case file is written", kept, kept == 1 ? "" : "s");
    return STATUS_BAD;
}

/* ---- the text and its lines ---- */

/* Takes the byte order mark of UTF-8 off the start of a text. */
static void drop_mark(char *text, size_t *length)
{
    static const char mark[] = "\xef\xbb\xbf";
    size_t size = sizeof mark - 1;

    if (*length < size || memcmp(text, mark, size) != 0)
        return;
    *length -= size;
    memmove(text, text + size, *length + 1);
}

/* Reads all of a text, which ends with a zero byte, without a byte order mark; NULL after a complaint. */
static char *read_text(FILE *in, const char *name, size_t *length)
{
    char *text = malloc(MOST_TEXT_BYTES + 1);

    if (text == NULL) {
        complain("%s: no memory is left", name);
        return NULL;
    }
    errno = 0;
    *length = fread(text, 1, MOST_TEXT_BYTES + 1, in);
    if (!ferror(in) && *length <= MOST_TEXT_BYTES) {
        text[*length] = '\0';
        drop_mark(text, length);
        return text;
    }
    if (ferror(in))
        complain("%s: cannot be read: %s", name, strerror(errno));
    else
        complain("%s: the text is over %u bytes, the most that is taken", name, MOST_TEXT_BYTES);
    free(text);
    return NULL;
}

static char *load_text(const char *operand, const char *name, size_t *length)
{
    int from_input = strcmp(operand, "-") == 0;
    FILE *in = from_input ? stdin : fopen(operand, "r");
    char *text;

    if (in == NULL) {
        complain("%s: cannot be read: %s", name, strerror(errno));
        return NULL;
    }
    text = read_text(in, name, length);
    if (!from_input)
        fclose(in);
    return text;
}

/* A line without its comment and the blanks at its end. Returns -1 with a message if it is no text. */
static int clean_line(char *line, size_t length, struct message *m)
{
    char *comment = memchr(line, '#', length);
    size_t i;

    if (comment != NULL)
        length = (size_t)(comment - line);
    if (*skip_blanks(line) == '*')
        length = 0;
    while (length > 0 && (line[length - 1] == ' ' || line[length - 1] == '\t' || line[length - 1] == '\r'))
        length--;
    for (i = 0; i < length; i++)
        if ((line[i] < ' ' && line[i] != '\t') || line[i] > '~') {
            wrong(m, "there is a character X'%02X'; only plain text is taken", (unsigned char)line[i]);
            *line = '\0';
            return -1;
        }
    line[length] = '\0';
    if (length <= MOST_LINE_LENGTH)
        return 0;
    *line = '\0';
    return wrong(m, "the line has %lu characters without its comment, and may have %u; divide it", (unsigned long)length,
                 MOST_LINE_LENGTH);
}

static unsigned count_lines(const char *text, size_t length)
{
    unsigned n = length > 0 && text[length - 1] != '\n';
    size_t i;

    for (i = 0; i < length; i++)
        n += text[i] == '\n';
    return n;
}

/* Cuts the text into lines. */
static void cut_lines(struct text_form *f, char *text, size_t length)
{
    char *end = text + length;
    struct message m;
    unsigned line;

    for (line = 1; line <= f->count; line++) {
        char *stop = memchr(text, '\n', (size_t)(end - text));

        if (stop == NULL)
            stop = end;
        if (clean_line(text, (size_t)(stop - text), &m))
            note_fault(f, line, &m);
        f->lines[line - 1].text = skip_blanks(text);
        text = stop + 1;
    }
}

/* ---- the command ---- */

/* The line after the last one is there too, so that no array is empty. */
static struct text_form *new_form(unsigned lines)
{
    struct text_form *f = calloc(1, sizeof *f);

    if (f == NULL)
        return NULL;
    f->count = lines;
    f->lines = calloc(lines + 1, sizeof *f->lines);
    f->labels = calloc(lines + 1, sizeof *f->labels);
    f->host_pages = calloc(PAGES, sizeof *f->host_pages);
    f->virtual_pages = calloc(PAGES, sizeof *f->virtual_pages);
    return f;
}

static void release(struct text_form *f)
{
    if (f == NULL)
        return;
    free(f->lines);
    free(f->labels);
    free(f->host_pages);
    free(f->virtual_pages);
    free(f);
}

/* A text: its bytes, and what it is called in messages. */
struct text {
    char *bytes;
    size_t length;
    const char *name;
};

/* Whether a line says anything. */
static int says_something(const struct text_form *f)
{
    unsigned i = 0;

    while (i < f->count && *f->lines[i].text == '\0')
        i++;
    return i < f->count;
}

static int make(struct text_form *f, const struct text *t, const char *out)
{
    cut_lines(f, t->bytes, t->length);
    if (f->fault_count == 0 && !says_something(f)) {
        complain("%s: the text says nothing%s; no case file is written", t->name,
                 f->from_file ? ", so it changes nothing" : ": it has no line but blank ones and comments");
        return STATUS_BAD;
    }
    sort_lines(f);
    apply_settings(f);
    apply_maps(f);
    put_tables(f);
    apply_contents(f);
    if (f->fault_count > 0)
        return report(f, t->name);
    return save(out, &f->c, STATUS_GOOD);
}

static int make_from(const struct text *t, const char *from, const char *out)
{
    unsigned lines = count_lines(t->bytes, t->length);
    struct text_form *f;
    int status = GO_ON;

    if (lines > MOST_LINES) {
        complain("%s: the text has %u lines, and may have %u", t->name, lines, MOST_LINES);
        return STATUS_BAD;
    }
    f = new_form(lines);
    if (f == NULL || f->lines == NULL || f->labels == NULL || f->host_pages == NULL || f->virtual_pages == NULL) {
        complain("%s: no memory is left", t->name);
        status = STATUS_BAD;
    } else if (from != NULL) {
        f->from_file = 1;
        status = load(from, &f->old);
        f->c = f->old;
    }
    if (status == GO_ON)
        status = make(f, t, out);
    release(f);
    return status;
}

/* Whether both names are of one ordinary file. */
static int same_file(const char *a, const char *b)
{
    struct stat first, second;

    if (strcmp(a, "-") == 0 || strcmp(b, "-") == 0 || stat(a, &first) != 0 || stat(b, &second) != 0)
        return 0;
    return S_ISREG(first.st_mode) && first.st_dev == second.st_dev && first.st_ino == second.st_ino;
}

/* Whether the arguments can be done together; complains if not. */
static int good_arguments(const struct arguments *a, const char *out)
{
    if (strcmp(out, "-") == 0 && isatty(STDOUT_FILENO)) {
        complain("make: standard output is a terminal, and a case file is not for reading; write -o OUT");
        return 0;
    }
    if (a->values[1] != NULL && strcmp(a->values[1], "-") == 0 && strcmp(a->operands[0], "-") == 0) {
        complain("make: standard input cannot be both the text and the case file; name a file for one of them");
        return 0;
    }
    if (same_file(a->operands[0], out)) {
        complain("make: %s is the text, and would be lost; write another name after -o", out);
        return 0;
    }
    return 1;
}

int command_make(int argc, char **argv)
{
    struct arguments a;
    struct text t;
    const char *out;
    int status = sort_arguments(argc, argv, &usage, &a);

    if (status != GO_ON)
        return status;
    out = a.values[0] != NULL ? a.values[0] : "-";
    if (!good_arguments(&a, out))
        return STATUS_BAD;
    t.name = shown_name(a.operands[0]);
    t.bytes = load_text(a.operands[0], t.name, &t.length);
    if (t.bytes == NULL)
        return STATUS_BAD;
    status = make_from(&t, a.values[1], out);
    free(t.bytes);
    return status;
}
