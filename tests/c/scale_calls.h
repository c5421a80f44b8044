/* The sixteen conversions that read no table: jd2 in and out, where jd1 is 2453750.5, and every refusal. */

typedef int64_t plain_call(double, double, uint8_t *, size_t);
typedef int64_t offset_call(double, double, double, uint8_t *, size_t);

static const struct { const char *name; plain_call *ask; double in, out; } PLAIN[] = {
    {"ct_gps_to_tai", ct_gps_to_tai, 0.0, 19.0 / 86400.0},
    {"ct_tai_to_gps", ct_tai_to_gps, 0.0, -19.0 / 86400.0},
    {"ct_tai_to_tt", ct_tai_to_tt, 0.892482639, 0.89285513900000002},
    {"ct_tt_to_tai", ct_tt_to_tai, 0.892482639, 0.89211013900000002},
    {"ct_tai_to_tcg", ct_tai_to_tcg, 0.892482639, 0.89286253125111836},
    {"ct_tcg_to_tai", ct_tcg_to_tai, 0.892862531, 0.89248263874888167},
    {"ct_tt_to_tcg", ct_tt_to_tcg, 0.892482639, 0.89249003125085868},
    {"ct_tcg_to_tt", ct_tcg_to_tt, 0.892862531, 0.89285513874888167},
    {"ct_tcb_to_tdb", ct_tcb_to_tdb, 0.893019599, 0.89285513627463442},
    {"ct_tdb_to_tcb", ct_tdb_to_tcb, 0.892855137, 0.8930195997253656},
};

static const struct { const char *name; offset_call *ask; double in, offset, out; } WITH_OFFSET[] = {
    {"ct_tt_to_tdb_with_offset", ct_tt_to_tdb_with_offset, 0.892855139, -0.000201, 0.89285513667361116},
    {"ct_tdb_to_tt_with_offset", ct_tdb_to_tt_with_offset, 0.892855137, -0.000201, 0.89285513932638882},
    {"ct_ut1_to_tai_with_offset", ct_ut1_to_tai_with_offset, 0.892104561, -32.6659, 0.89248263854629628},
    {"ct_tai_to_ut1_with_offset", ct_tai_to_ut1_with_offset, 0.892482639, -32.6659, 0.89210456145370376},
    {"ct_ut1_to_tt_with_delta_t", ct_ut1_to_tt_with_delta_t, 0.892104561, 64.8499, 0.89285513854629628},
    {"ct_tt_to_ut1_with_delta_t", ct_tt_to_ut1_with_delta_t, 0.892855139, 64.8499, 0.89210456145370376},
};

static const uint64_t NOT_FINITE[] = {
    INFINITE, SIGN | INFINITE, INFINITE | QUIET, SIGN | INFINITE | QUIET, INFINITE | 1, SIGN | INFINITE | 1,
};

#define COUNT(table) (sizeof table / sizeof *table)

static void plain_scales(void)
{
    size_t i, k;
    for (room = 0; room <= ROOM; room++)
        for (i = 0; i < COUNT(PLAIN); i++) {
            parts(2453750.5, PLAIN[i].out);
            judge(PLAIN[i].name, 0, PLAIN[i].ask(2453750.5, PLAIN[i].in, fresh(), room));
            for (k = 0; k < COUNT(NOT_FINITE); k++) {
                double not_finite = ct_opaque_float(NOT_FINITE[k]);
                judge(PLAIN[i].name, 9, PLAIN[i].ask(not_finite, 0.0, fresh(), room));
                judge(PLAIN[i].name, 9, PLAIN[i].ask(2451545.0, not_finite, fresh(), room));
                judge(PLAIN[i].name, 9, PLAIN[i].ask(not_finite, infinite_float(), fresh(), room));
            }
        }
    REFUSES(9, ct_tcg_to_tai, 1.7e308, 1.7e308);
    GIVES(parts(minus_infinite_float(), 1.7e308), ct_tcb_to_tdb, 1.7e308, 1.7e308);
}

static void scales_with_offset(void)
{
    size_t i, k;
    for (room = 0; room <= ROOM; room++)
        for (i = 0; i < COUNT(WITH_OFFSET); i++) {
            const char *name = WITH_OFFSET[i].name;
            offset_call *ask = WITH_OFFSET[i].ask;
            parts(2453750.5, WITH_OFFSET[i].out);
            judge(name, 0, ask(2453750.5, WITH_OFFSET[i].in, WITH_OFFSET[i].offset, fresh(), room));
            for (k = 0; k < COUNT(NOT_FINITE); k++) {
                double not_finite = ct_opaque_float(NOT_FINITE[k]);
                judge(name, 9, ask(not_finite, 0.0, nan_float(), fresh(), room));
                judge(name, 9, ask(2451545.0, not_finite, 0.0, fresh(), room));
                judge(name, 10, ask(2451545.0, 0.0, not_finite, fresh(), room));
            }
        }
}
