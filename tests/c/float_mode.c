/* ct_float_mode, and what a float mode that the library does not assume changes.
     float_mode default | fast
   The word says how this program was linked: `fast` with -ffast-math or -Ofast. The mode at the start
   is compared with it. Then each probe, a call on subnormal numbers, is asked in that mode and in the
   default mode, and the answers that differ are printed. The texts must not differ. With `fast`, a
   link by gcc for x86-64 must set both bits of the processor, and every probe must differ; where
   another compiler's link sets no mode, it is printed. */
#include "check.h"
#include "patterns.h"
#include <fenv.h>
#ifdef __SSE2__
#include <xmmintrin.h>
#endif

enum { PROBES = 10, ROOM = 32 };

typedef struct { const char *name; int64_t code; uint8_t bytes[ROOM]; } probe;

/* The smallest float above 0, and its negative. */
static double tiny(void) { return ct_opaque_float(1); }
static double minus_tiny(void) { return ct_opaque_float(SIGN | 1); }

#define ASK(call, ...) \
    (p->name = #call "(" #__VA_ARGS__ ")", p->code = call(__VA_ARGS__, p->bytes, ROOM), p++)
#define ASK_FLOAT(call, ...) \
    (p->name = #call "(" #__VA_ARGS__ ")", p->code = (int64_t)ct_opaque_bits(call(__VA_ARGS__)), p++)

static void ask_all(probe *p)
{
    probe *first = p;
    memset(p, 0, PROBES * sizeof *p);
    ASK(ct_gps_to_tai, tiny(), 0.0);
    ASK(ct_utc_to_tai, 0.0, tiny(), ct_no_rows, CT_TABLE_BYTES);
    ASK(ct_tt_to_tdb_with_offset, tiny(), 0.0, 0.0);
    ASK(ct_add_days, 2451545.0, tiny(), 0.0);
    ASK(ct_julian_to_calendar, -0.5, tiny());
    ASK_FLOAT(ct_to_f64, tiny(), tiny());
    ASK_FLOAT(ct_difference, tiny(), 0.0, 0.0, 0.0);
    p->name = "ct_equal(tiny(), 0.0, 0.0, 0.0)";
    p->code = ct_equal(tiny(), 0.0, 0.0, 0.0);
    p++;
    ASK(ct_get_tai_utc_offset, 2000, 1, 1, minus_tiny(), ct_no_rows, CT_TABLE_BYTES);
    ASK(ct_from_calendar, 2000, 1, 1, 0, 0, minus_tiny());
    check(p - first == PROBES, "%d probes", (int)(p - first));
}

/* How many answers of one mode differ from those of the other. */
static int compare(const probe *here, const probe *by_default)
{
    int i, changed = 0;
    for (i = 0; i < PROBES; i++) {
        if (here[i].code == by_default[i].code && !memcmp(here[i].bytes, by_default[i].bytes, ROOM)) continue;
        changed++;
        printf("  changes in this float mode: %s\n", here[i].name);
    }
    return changed;
}

/* ---- texts of stamps with a subnormal part */

static const uint64_t SUBNORMAL[] = {1, SIGN | 1, 0x0008000000000000, 0x000fffffffffffff, SIGN | 0x000fffffffffffff};
static const double DAYS[] = {-0.5, 0.0, 0.5, -31738.5, 1e9, -68569.5, 2436933.5, 2451544.5, 2457753.5, 2457754.5};
enum { SUBNORMALS = sizeof SUBNORMAL / sizeof *SUBNORMAL, DAY_COUNT = sizeof DAYS / sizeof *DAYS };

typedef struct { int64_t code[2]; uint8_t bytes[2][ROOM]; } texts;

static int64_t text(double jd1, double jd2, uint8_t *out)
{
    uint8_t rule[CT_RULE_BYTES];
    return ct_to_iso8601(jd1, jd2, ct_no_rows, CT_TABLE_BYTES, out, ROOM, rule, sizeof rule);
}

static void ask_texts(texts *t)
{
    int i, k;
    memset(t, 0, SUBNORMALS * DAY_COUNT * sizeof *t);
    for (i = 0; i < SUBNORMALS; i++)
        for (k = 0; k < DAY_COUNT; k++, t++) {
            t->code[0] = text(DAYS[k], ct_opaque_float(SUBNORMAL[i]), t->bytes[0]);
            t->code[1] = text(ct_opaque_float(SUBNORMAL[i]), DAYS[k], t->bytes[1]);
        }
}

static void rounding(void)
{
#if defined FE_UPWARD && defined FE_DOWNWARD && defined FE_TOWARDZERO
    static const int ROUNDINGS[] = {FE_UPWARD, FE_DOWNWARD, FE_TOWARDZERO};
    int i;
    for (i = 0; i < 3; i++) {
        check(!fesetround(ROUNDINGS[i]), "fesetround");
        check(ct_float_mode() == CT_MODE_ROUNDING, "rounding %d: mode %d", i, ct_float_mode());
        check(!fesetround(FE_TONEAREST), "fesetround");
        check(ct_float_mode() == 0, "round to nearest: mode %d", ct_float_mode());
    }
#endif
}

/* The numbers of the modes, which a viewer may keep or print, stand in the header once; here they are said again. */
static void numbers(void)
{
    check(CT_MODE_ROUNDING == 1, "CT_MODE_ROUNDING is %d", CT_MODE_ROUNDING);
    check(CT_MODE_RESULTS == 2, "CT_MODE_RESULTS is %d", CT_MODE_RESULTS);
    check(CT_MODE_OPERANDS == 4, "CT_MODE_OPERANDS is %d", CT_MODE_OPERANDS);
}

/* The two bits of the processor, one by one, by the mode's number and by what they do: a subnormal result of normal operands, and a
   normal result of a subnormal operand. */
static void flushing(void)
{
#ifdef __SSE2__
    static const struct { unsigned bits; int mode; uint64_t result, of_operand; } CASES[] = {
        {0x0000, 0, 0x0008000000000000, 0x0010000000000000},
        {0x8000, 2, 0, 0x0010000000000000},
        {0x0040, 4, 0x0008000000000000, 0},
        {0x8040, 6, 0, 0}};
    unsigned saved = _mm_getcsr();
    int i;
    for (i = 0; i < 4; i++) {
        uint64_t result, of_operand;
        int mode;
        _mm_setcsr(saved | CASES[i].bits);
        result = ct_opaque_bits(ct_opaque_float(0x0010000000000000) * ct_opaque_float(0x3fe0000000000000));
        of_operand = ct_opaque_bits(ct_opaque_float(1) * ct_opaque_float(0x4330000000000000));
        mode = ct_float_mode();
        _mm_setcsr(saved);
        check(result == CASES[i].result, "bits %x: a subnormal result is %lx", CASES[i].bits, (unsigned long)result);
        check(of_operand == CASES[i].of_operand, "bits %x: of a subnormal operand %lx", CASES[i].bits, (unsigned long)of_operand);
        check(mode == CASES[i].mode, "bits %x: mode %d", CASES[i].bits, mode);
    }
#endif
}

/* The mode at the start and the number of answers that it changes, by the way of linking. */
static void judge_link(int fast, int mode, int changed)
{
    if (!fast) {
        check(mode == 0 && changed == 0, "mode %d without -ffast-math, %d answers changed", mode, changed);
        return;
    }
#if defined __x86_64__ && defined __GNUC__ && !defined __clang__
    check(mode == (CT_MODE_RESULTS | CT_MODE_OPERANDS), "mode %d with -ffast-math", mode);
    check(changed == PROBES, "mode %d, and %d answers changed", mode, changed);
#else
    if (mode == 0) printf("this compiler sets no float mode with -ffast-math\n");
    check((mode == 0) == (changed == 0), "mode %d, and %d answers changed", mode, changed);
#endif
}

int main(int count, char **words)
{
    static probe here[PROBES], by_default[PROBES];
    static texts here_texts[SUBNORMALS * DAY_COUNT], default_texts[SUBNORMALS * DAY_COUNT];
    int mode = ct_float_mode(), fast = count == 2 && !strcmp(words[1], "fast"), changed;
    ask_all(here);
    ask_texts(here_texts);
    check(!fesetenv(FE_DFL_ENV), "fesetenv");
    check(ct_float_mode() == 0, "the default environment has mode %d", ct_float_mode());
    ask_all(by_default);
    ask_texts(default_texts);
    check(!memcmp(here_texts, default_texts, sizeof here_texts), "a text changes in float mode %d", mode);
    changed = compare(here, by_default);
    printf("float mode %d, %d of %d answers on subnormal numbers change\n", mode, changed, PROBES);
    judge_link(fast, mode, changed);
    numbers();
    rounding();
    flushing();
    return summary("float_mode");
}
