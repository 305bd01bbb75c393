/* The line protocol on standard input and output, through the static library of include/cigar.h.
 *
 * driver           answers request lines
 * driver --calls   names the calls that the library has
 * driver --null    answers request lines with NULL for every buffer of no element
 */
#include "cigar.h"

long read(int file, void *to, size_t bytes);
long write(int file, const void *from, size_t bytes);
void exit(int status);

enum { MOST = 1 << 21, LONGEST_LINE = 1 << 24, BLOCK = 1 << 16, ARGS = 5, ROOMS = 2, GUARD = 4 };

static const uint32_t FILL_OPS = 2779096485u;
static const uint8_t FILL_BYTES = 165;

/* ---- what was read of a request */

struct arg {
    uint64_t number;
    uint8_t *bytes;
    uint32_t *ops;
    size_t n;
};

static struct arg arg[ARGS];
static int null_if_empty;

static uint8_t record_area[2][LONGEST_LINE / 2];
static uint32_t list_area[2][MOST];
static uint32_t ops_room[ROOMS][MOST + GUARD];
static uint8_t bytes_room[ROOMS][MOST + GUARD];

/* ---- the calls: name; arguments (R bytes, W bytes lent to be written, L list, o and b lent outputs of ops and bytes, i and u 32 bits, I and U 64 bits, f flag);
 * values (s signed, u unsigned, n none or a number, c a signed position, or unmapped, or no ops, p a part of the record); and how they are passed */

#define BUFFER(i, part) null_if_empty && !arg[i].n ? 0 : arg[i].part, arg[i].n
#define BYTES(i) BUFFER(i, bytes)
#define OPS(i) BUFFER(i, ops)
#define I32(i) (int32_t)arg[i].number
#define I64(i) (int64_t)arg[i].number
#define U32(i) (uint32_t)arg[i].number
#define U64(i) arg[i].number
#define FLAG(i) (uint8_t)arg[i].number

#define CALLS \
    CALL(ref_id, "R", "s", BYTES(0)) \
    CALL(pos, "R", "s", BYTES(0)) \
    CALL(l_read_name, "R", "u", BYTES(0)) \
    CALL(bin, "R", "u", BYTES(0)) \
    CALL(n_cigar_op, "R", "u", BYTES(0)) \
    CALL(flags, "R", "u", BYTES(0)) \
    CALL(l_seq, "R", "u", BYTES(0)) \
    CALL(mate_ref_id, "R", "s", BYTES(0)) \
    CALL(mate_pos, "R", "s", BYTES(0)) \
    CALL(template_length, "R", "s", BYTES(0)) \
    CALL(cigar_raw_bytes, "R", "p", BYTES(0)) \
    CALL(get_cigar_ops, "Ro", "u", BYTES(0), OPS(1)) \
    CALL(consumes_ref, "u", "u", U32(0)) \
    CALL(consumes_query, "u", "u", U32(0)) \
    CALL(consumes_read, "u", "u", U32(0)) \
    CALL(from_op_type, "u", "n", U32(0)) \
    CALL(as_char, "u", "n", U32(0)) \
    CALL(op_new, "uu", "n", U32(0), U32(1)) \
    CALL(op_kind, "u", "u", U32(0)) \
    CALL(op_len, "u", "u", U32(0)) \
    CALL(op_consumes_query, "u", "u", U32(0)) \
    CALL(op_consumes_ref, "u", "u", U32(0)) \
    CALL(reference_length_from_cigar, "L", "s", OPS(0)) \
    CALL(query_length_from_cigar, "L", "u", OPS(0)) \
    CALL(saturating_reference_length, "L", "s", OPS(0)) \
    CALL(reference_length_from_raw_bam, "R", "s", BYTES(0)) \
    CALL(reference_length_from_raw_bam_checked, "R", "s", BYTES(0)) \
    CALL(query_length, "R", "u", BYTES(0)) \
    CALL(cigar_lengths, "R", "suuuuu", BYTES(0)) \
    CALL(cigar_to_bytes_into, "Rb", "u", BYTES(0), BYTES(1)) \
    CALL(parse_cigar_string_ops, "Ro", "u", BYTES(0), OPS(1)) \
    CALL(is_valid_mapped_cigar, "L", "u", OPS(0)) \
    CALL(mate_unclipped_5prime, "ifR", "s", I32(0), FLAG(1), BYTES(2)) \
    CALL(mate_unclipped_5prime_1based, "ifR", "s", I32(0), FLAG(1), BYTES(2)) \
    CALL(unclipped_5prime_from_raw_bam, "R", "c", BYTES(0)) \
    CALL(unclipped_5prime_raw, "Rif", "s", BYTES(0), I32(1), FLAG(2)) \
    CALL(alignment_start_from_raw, "R", "n", BYTES(0)) \
    CALL(alignment_end_from_raw, "R", "n", BYTES(0)) \
    CALL(read_pos_at_ref_pos_raw, "LUUf", "nu", OPS(0), U64(1), U64(2), FLAG(3)) \
    CALL(clip_cigar_start_raw, "LUo", "uu", OPS(0), U64(1), OPS(2)) \
    CALL(clip_cigar_end_raw, "LUo", "u", OPS(0), U64(1), OPS(2)) \
    CALL(clip_cigar_start, "RUo", "uu", BYTES(0), U64(1), OPS(2)) \
    CALL(clip_cigar_end, "RUo", "u", BYTES(0), U64(1), OPS(2)) \
    CALL(bed_blocks, "iLoo", "uuu", I32(0), OPS(1), OPS(2), OPS(3)) \
    CALL(match_ops_from_md, "LRo", "u", OPS(0), BYTES(1), OPS(2)) \
    CALL(is_mapped_opposite_strand_pair_raw, "R", "u", BYTES(0)) \
    CALL(is_fr_pair_raw, "R", "u", BYTES(0)) \
    CALL(is_primary_fr_pair_raw, "RR", "u", BYTES(0), BYTES(1)) \
    CALL(bases_extending_past_mate_ops, "fiLiL", "u", FLAG(0), I32(1), OPS(2), I32(3), OPS(4)) \
    CALL(num_bases_extending_past_mate_cigar_raw, "RL", "u", BYTES(0), OPS(1)) \
    CALL(num_bases_extending_past_mate_vs_mate_raw, "RR", "u", BYTES(0), BYTES(1)) \
    CALL(num_bases_extending_past_mate_text_raw, "RRo", "uu", BYTES(0), BYTES(1), OPS(2)) \
    CALL(reg2bin, "ii", "u", I32(0), I32(1)) \
    CALL(bin_from_raw_bam, "R", "u", BYTES(0)) \
    CALL(set_bin_from_raw_bam, "W", "u", BYTES(0)) \
    CALL(csi_reg2bin, "IIuu", "u", I64(0), I64(1), U32(2), U32(3)) \
    CALL(csi_reg2bins, "IIuuo", "u", I64(0), I64(1), U32(2), U32(3), OPS(4)) \
    CALL(true_cigar_raw_bytes, "R", "p", BYTES(0)) \
    CALL(true_cigar_ops, "Ro", "u", BYTES(0), OPS(1)) \
    CALL(true_cigar_lengths, "R", "suuuuu", BYTES(0)) \
    CALL(true_cigar_to_bytes_into, "Rb", "u", BYTES(0), BYTES(1)) \
    CALL(true_unclipped_5prime_from_raw_bam, "R", "c", BYTES(0)) \
    CALL(true_clip_cigar_start, "RUo", "uu", BYTES(0), U64(1), OPS(2)) \
    CALL(true_clip_cigar_end, "RUo", "u", BYTES(0), U64(1), OPS(2)) \
    CALL(long_reference_length_from_cigar, "L", "s", OPS(0)) \
    CALL(long_query_length_from_cigar, "L", "u", OPS(0)) \
    CALL(long_read_pos_at_ref_pos_raw, "LUUf", "nu", OPS(0), U64(1), U64(2), FLAG(3)) \
    CALL(long_clip_cigar_start_raw, "LUo", "uu", OPS(0), U64(1), OPS(2)) \
    CALL(long_clip_cigar_end_raw, "LUo", "u", OPS(0), U64(1), OPS(2)) \
    CALL(clip_record_start, "RUb", "uu", BYTES(0), U64(1), BYTES(2)) \
    CALL(clip_record_end, "RUb", "u", BYTES(0), U64(1), BYTES(2)) \
    CALL(check_clipped_start, "RUR", "u", BYTES(0), U64(1), BYTES(2)) \
    CALL(check_clipped_end, "RUR", "u", BYTES(0), U64(1), BYTES(2))

/* A call that the library lacks is a null pointer here, and a bad request. */
#define CALL(name, args, kinds, ...) extern __typeof__(cigar_##name) cigar_##name __attribute__((weak));
CALLS
#undef CALL

/* What a call answered: its number, and its values as they are told, two of a value that may be none, or of one of three cases. */
enum { VALUES = 6 };
struct answer {
    uint32_t refusal;
    uint64_t values[VALUES];
};

static struct answer of_int(struct cigar_int a) { return (struct answer){a.refusal, {(uint64_t)(int64_t)a.value, 0}}; }
static struct answer of_count(struct cigar_count a) { return (struct answer){a.refusal, {a.value, 0}}; }
static struct answer of_flag(struct cigar_flag a) { return (struct answer){a.refusal, {a.value, 0}}; }
static struct answer of_found(struct cigar_found a) { return (struct answer){a.refusal, {a.found, a.value}}; }
static struct answer of_lookup(struct cigar_lookup a) { return (struct answer){a.refusal, {a.found, a.value, a.examined}}; }
static struct answer of_position(struct cigar_position a) { return (struct answer){a.refusal, {a.which, (uint64_t)(int64_t)a.value}}; }
static struct answer of_two(struct cigar_two a) { return (struct answer){a.refusal, {a.first, a.second}}; }
static struct answer of_lengths(struct cigar_lengths a)
{
    return (struct answer){a.refusal, {(uint64_t)(int64_t)a.reference, a.query, a.leading_soft, a.leading_hard, a.trailing_soft, a.trailing_hard}};
}
static struct answer of_blocks(struct cigar_blocks a) { return (struct answer){a.refusal, {a.chrom_start, a.chrom_end, a.block_count}}; }
static struct answer of_bool(bool a) { return (struct answer){0, {a, 0}}; }
static struct answer of_u32(uint32_t a) { return (struct answer){0, {a, 0}}; }
static struct answer of_i32(int32_t a) { return (struct answer){0, {(uint64_t)(int64_t)a, 0}}; }

#define ANSWER(a) \
    _Generic((a), struct cigar_int: of_int, struct cigar_count: of_count, struct cigar_flag: of_flag, struct cigar_found: of_found, struct cigar_lookup: of_lookup, \
        struct cigar_position: of_position, struct cigar_two: of_two, struct cigar_lengths: of_lengths, struct cigar_blocks: of_blocks, bool: of_bool, uint32_t: of_u32, int32_t: of_i32)(a)

#define CALL(name, args, kinds, ...) \
    static struct answer run_##name(void) { return ANSWER(cigar_##name(__VA_ARGS__)); }
CALLS
#undef CALL

struct call {
    const char *name, *args, *kinds;
    struct answer (*run)(void);
    void *function;
};

#define CALL(name, args, kinds, ...) {#name, args, kinds, run_##name, (void *)cigar_##name},
static const struct call calls[] = {CALLS};
#undef CALL

enum { COUNT = sizeof calls / sizeof calls[0] };

/* ---- output */

static char out[BLOCK];
static size_t out_n;

static void flush(void)
{
    size_t done = 0;
    while (done < out_n) {
        long n = write(1, out + done, out_n - done);
        if (n <= 0)
            exit(1);
        done += (size_t)n;
    }
    out_n = 0;
}

static void put(char c)
{
    if (out_n == sizeof out)
        flush();
    out[out_n++] = c;
}

static void put_text(const char *text)
{
    while (*text)
        put(*text++);
}

static void put_number(uint64_t n)
{
    char digits[20];
    int i = 0;
    do {
        digits[i++] = (char)('0' + n % 10);
        n /= 10;
    } while (n);
    while (i)
        put(digits[--i]);
}

static void put_signed(int64_t n)
{
    if (n < 0)
        put('-');
    put_number(n < 0 ? -(uint64_t)n : (uint64_t)n);
}

/* One of the two is given. Each run of equal values is written V*N. */
static void put_content(const uint8_t *bytes, const uint32_t *ops, size_t n)
{
#define AT(i) (bytes ? bytes[i] : ops[i])
    put_text(n ? " ; " : " ; -");
    for (size_t i = 0, run; i < n; i += run) {
        for (run = 1; i + run < n && AT(i + run) == AT(i); run++)
            ;
        if (i)
            put(',');
        put_number(AT(i));
        if (run > 1) {
            put('*');
            put_number(run);
        }
    }
#undef AT
}

/* ---- the words of a request: each reader takes one from `at`, and answers 0 if it is malformed. A line ends in a newline. */

static char line[LONGEST_LINE + 2];
static const char *at;

static int decimal(uint64_t *n)
{
    const char *first = at;
    for (*n = 0; *at >= '0' && *at <= '9'; at++)
        if (__builtin_mul_overflow(*n, 10, n) || __builtin_add_overflow(*n, *at - '0', n))
            return 0;
    return at != first;
}

static int up_to(uint64_t most, uint64_t *n)
{
    return decimal(n) && *n <= most;
}

/* A number from -most - 1 to most. */
static int read_signed(struct arg *a, uint64_t most)
{
    if (*at != '-')
        return up_to(most, &a->number);
    at++;
    if (!up_to(most + 1, &a->number))
        return 0;
    a->number = -a->number;
    return 1;
}

static int nibble(char c)
{
    if (c >= '0' && c <= '9')
        return c - '0';
    return c >= 'a' && c <= 'f' ? c - 'a' + 10 : -1;
}

static int read_bytes(struct arg *a, uint8_t *into)
{
    a->bytes = into;
    a->n = 0;
    if (*at == '-') {
        at++;
        return 1;
    }
    while (*at != ' ' && *at != '\n') {
        int high = nibble(at[0]), low = high < 0 ? -1 : nibble(at[1]);
        if (low < 0)
            return 0;
        into[a->n++] = (uint8_t)(high * 16 + low);
        at += 2;
    }
    return a->n > 0;
}

static int read_list(struct arg *a, uint32_t *into)
{
    a->ops = into;
    a->n = 0;
    if (*at == '-') {
        at++;
        return 1;
    }
    for (;; at++) {
        uint64_t value, times = 1;
        if (!up_to(4294967295u, &value))
            return 0;
        if (*at == '*' && (at++, !up_to(MOST - a->n, &times)))
            return 0;
        if (times > MOST - a->n)
            return 0;
        for (; times; times--)
            into[a->n++] = (uint32_t)value;
        if (*at != ',')
            return 1;
    }
}

/* The places of a lent output, and GUARD behind them, are filled. */
static int read_room(struct arg *a, int of_ops, int room)
{
    uint64_t places;
    if (*at++ != '@' || !up_to(MOST, &places))
        return 0;
    a->n = places;
    a->ops = ops_room[room];
    a->bytes = bytes_room[room];
    for (size_t i = 0; i < places + GUARD; i++)
        if (of_ops)
            a->ops[i] = FILL_OPS;
        else
            a->bytes[i] = FILL_BYTES;
    return 1;
}

static int read_arg(char kind, int i)
{
    struct arg *a = &arg[i];
    switch (kind) {
    case 'R':
    case 'W':
        return read_bytes(a, record_area[i > 0]);
    case 'L':
        return read_list(a, list_area[i > 2]);
    case 'o':
    case 'b':
        return read_room(a, kind == 'o', i & 1);
    case 'i':
        return read_signed(a, 2147483647u);
    case 'I':
        return read_signed(a, 9223372036854775807u);
    case 'u':
        return up_to(4294967295u, &a->number);
    case 'U':
        return decimal(&a->number);
    default:
        return up_to(1, &a->number) && at[-2] == ' ';
    }
}

/* The call that the line asks for, with its arguments read; null for a bad request. */
static const struct call *read_request(void)
{
    static const struct call *c = calls;
    for (int tried = 0;; tried++, c = c + 1 < calls + COUNT ? c + 1 : calls) {
        const char *name = c->name;
        for (at = line; *name && *at == *name; name++)
            at++;
        if (!*name && (*at == ' ' || *at == '\n'))
            break;
        if (tried == COUNT)
            return 0;
    }
    if (!c->function)
        return 0;
    for (int i = 0; c->args[i]; i++)
        if (*at++ != ' ' || !read_arg(c->args[i], i))
            return 0;
    return *at == '\n' ? c : 0;
}

/* ---- answers */

static const char *const cases[] = {"ok ", "unmapped", "no_ops"};

/* One of three cases, and the position of the first. */
static void put_case(const uint64_t *values)
{
    put_text(values[0] < 3 ? cases[values[0]] : "an unknown case");
    if (!values[0])
        put_signed((int64_t)values[1]);
}

static void put_values(const struct call *c, const uint64_t *values)
{
    if (c->kinds[0] == 'c') {
        put_case(values);
        return;
    }
    int may_be_none = c->kinds[0] == 'n', none = may_be_none && !values[0];
    put_text(none ? "none" : "ok");
    for (int i = none; c->kinds[i] && c->kinds[i] != 'p'; i++) {
        put(' ');
        if (c->kinds[i] == 's')
            put_signed((int64_t)values[i]);
        else
            put_number(values[i + may_be_none]);
    }
}

static void put_part(const struct answer *a)
{
    if (a->refusal)
        put_text(" ; -");
    else if (a->values[0] > arg[0].n || a->values[1] > arg[0].n - a->values[0])
        put_text(" ; a part outside the record");
    else
        put_content(arg[0].bytes + a->values[0], 0, a->values[1]);
}

/* Said where the library told or wrote what it may not: a value beside a refusal, beside none or beside no position, places behind a lent output. */
static void put_strays(const struct call *c, const struct answer *a)
{
    int beside = ((c->kinds[0] == 'n' && !a->values[0]) || (c->kinds[0] == 'c' && a->values[0])) && a->values[1];
    for (int i = 0; i < VALUES; i++)
        beside |= a->refusal && a->values[i];
    if (beside)
        put_text(" ; a value beside none");
    for (int i = 0; c->args[i]; i++)
        for (size_t g = 0; g < GUARD; g++)
            if ((c->args[i] == 'o' && arg[i].ops[arg[i].n + g] != FILL_OPS) || (c->args[i] == 'b' && arg[i].bytes[arg[i].n + g] != FILL_BYTES))
                put_text(" ; a place written astray");
}

static void answer(void)
{
    const struct call *c = read_request();
    if (!c) {
        put_text("bad request\n");
        return;
    }
    struct answer a = c->run();
    if (a.refusal) {
        put_text("refuse ");
        put_number(a.refusal);
    } else
        put_values(c, a.values);
    if (c->kinds[0] == 'p')
        put_part(&a);
    for (int i = 0; c->args[i]; i++)
        if (c->args[i] == 'o')
            put_content(0, arg[i].ops, arg[i].n);
        else if (c->args[i] == 'b' || c->args[i] == 'W')
            put_content(arg[i].bytes, 0, arg[i].n);
    put_strays(c, &a);
    put('\n');
}

/* ---- lines */

static char block[BLOCK];

/* Answers every line; what is answered is written before more is read. */
static void answer_all(void)
{
    size_t n = 0;
    for (;;) {
        flush();
        long got = read(0, block, sizeof block);
        if (got <= 0)
            break;
        for (long i = 0; i < got; i++) {
            if (n <= LONGEST_LINE)
                line[n] = block[i];
            if (block[i] != '\n') {
                n += n <= LONGEST_LINE;
                continue;
            }
            if (n > LONGEST_LINE)
                put_text("bad request\n");
            else
                answer();
            n = 0;
        }
    }
    if (n > LONGEST_LINE)
        put_text("bad request\n");
    else if (n) {
        line[n] = '\n';
        answer();
    }
    flush();
}

static int same(const char *a, const char *b)
{
    while (*a && *a == *b)
        a++, b++;
    return *a == *b;
}

int main(int count, char **words)
{
    if (count == 2 && same(words[1], "--calls")) {
        for (int i = 0; i < COUNT; i++)
            if (calls[i].function) {
                put_text(calls[i].name);
                put('\n');
            }
        flush();
        return 0;
    }
    null_if_empty = count == 2 && same(words[1], "--null");
    answer_all();
    return 0;
}
