/* The two other texts: half milliseconds to the even one, and a sign and seven digits for years that four do not
   hold. tests/text_forms has the bulk. */

#define UNITS(n) ((n) * 0x1p-52)

static void half_even_texts(void)
{
    /* ties: 126,562.5 ms, 42,187.5 ms, and a sixteenth of a day of 86,401 s; document 01's text beside them */
    GIVES(text("2000-01-01T00:02:06.562"), even_of, 2451544.5, 3.0 / 2048.0, NO_ROWS);
    GIVES(text("2000-01-01T00:02:06.563"), text_of, 2451544.5, 3.0 / 2048.0, NO_ROWS);
    GIVES(text("2000-01-01T00:00:42.188"), even_of, 2451544.5, 1.0 / 2048.0, NO_ROWS);
    GIVES(text("2016-12-31T01:30:00.062"), even_of, 2457753.5, 1.0 / 16.0, NO_ROWS);
    GIVES(text("2016-12-31T01:30:00.063"), text_of, 2457753.5, 1.0 / 16.0, NO_ROWS);
    GIVES(text("1961-07-31T00:02:06.562"), even_of, 2437511.5, 3.0 / 2048.0, NO_ROWS);
    GIVES(text("1959-12-31T00:02:06.564"), even_of, 2436933.5, 3.0 / 2048.0, NO_ROWS);
    /* next to a half, and no tie: the float of document 01 goes to the other side; first where it does so in a day */
    GIVES(text("2000-01-01T00:00:14.550"), even_of, 2451544.5, UNITS(758444749746.0), NO_ROWS);
    GIVES(text("2000-01-01T00:00:14.551"), text_of, 2451544.5, UNITS(758444749746.0), NO_ROWS);
    GIVES(text("2000-01-01T00:04:18.160"), even_of, 2451544.5, UNITS(13456562824099.0), NO_ROWS);
    GIVES(text("2000-01-01T00:04:18.159"), text_of, 2451544.5, UNITS(13456562824099.0), NO_ROWS);
    GIVES(text("2000-01-01T18:28:16.171"), even_of, 2451544.5, UNITS(3466112652650053.0), NO_ROWS);
    GIVES(text("2000-01-01T18:28:16.172"), text_of, 2451544.5, UNITS(3466112652650053.0), NO_ROWS);
    GIVES(text("2000-01-01T18:29:06.793"), even_of, 2451544.5, UNITS(3468751272056733.0), NO_ROWS);
    GIVES(text("2000-01-01T18:29:06.792"), text_of, 2451544.5, UNITS(3468751272056733.0), NO_ROWS);
    GIVES(text("2000-01-02T00:00:00.000"), even_of, 2451544.5, UNITS(4503599627370495.0), NO_ROWS);
    GIVES(text("2016-12-31T23:59:60.000"), even_of, 2457753.5, 86400.0 / 86401.0, NO_ROWS);
    GIVES(text("-4799-01-01T00:00:00.000"), even_of, -31738.5, 0.0, NO_ROWS);
    GIVES(text("2733194-11-27T12:00:00.000"), even_of, 1e9, 0.0, NO_ROWS);
}

static void expanded_texts(void)
{
    GIVES(text("2000-01-01T00:02:06.563"), expanded_of, 2451544.5, 3.0 / 2048.0, NO_ROWS);
    GIVES(text("2016-12-31T23:59:60.988"), expanded_of, 2457753.5, 86400.9876 / 86401.0, NO_ROWS);
    GIVES(text("-0004799-01-01T00:00:00.000"), expanded_of, -31738.5, 0.0, NO_ROWS);
    GIVES(text("-0000001-12-31T00:00:00.000"), expanded_of, 1721058.5, 0.0, NO_ROWS);
    GIVES(text("0000-01-01T00:00:00.000"), expanded_of, 1721059.5, 0.0, NO_ROWS);
    GIVES(text("9999-12-31T00:00:00.000"), expanded_of, 5373483.5, 0.0, NO_ROWS);
    GIVES(text("+0010000-01-01T00:00:00.000"), expanded_of, 5373484.5, 0.0, NO_ROWS);
    GIVES(text("+0012000-01-01T00:00:00.000"), expanded_of, 6103969.5, 0.0, NO_ROWS);
    GIVES(text("+2733194-11-27T12:00:00.000"), expanded_of, 1e9, 0.0, NO_ROWS);
    /* 11 is judged by the year after the carry */
    GIVES(text("+0010000-01-01T00:00:00.000"), expanded_of, 5373483.5, 1.0 - 0x1p-40, NO_ROWS);
    GIVES(text("0000-01-01T00:00:00.000"), expanded_of, 1721058.5, 1.0 - 0x1p-40, NO_ROWS);
}

/* What both have as document 01's text: refusals in their order, and the rule of the day before a carry. */
static void as_document_01(const char *name, text_call *call, plain_text *ask)
{
    REFUSES(6, ask, nan_float(), 0.0, NO_ROWS);
    REFUSES(6, ask, 2451545.0, signalling_float(), NO_ROWS);
    REFUSES(6, ask, infinite_float(), minus_infinite_float(), NO_ROWS);
    REFUSES(6, ask, 1e9, 1.0, NO_ROWS);
    REFUSES(6, ask, -68571.0, 0.0, NO_ROWS);
    REFUSES(1, ask, -31739.5, 0.0, NO_ROWS);
    told_by(name, call, "1959-12-30T12:00:00.000", 0, CT_RULE_ABSENT, -1, 2436932.5, 0.5, NO_ROWS);
    told_by(name, call, "1960-01-01T00:00:00.000", 0, CT_RULE_DRIFTING, 0, 2436934.5, 0.0, NO_ROWS);
    told_by(name, call, "1972-01-01T00:00:00.000", 0, CT_RULE_WHOLE, 14, 2441317.5, 0.0, NO_ROWS);
    told_by(name, call, "2017-01-01T00:00:00.000", 0, CT_RULE_WHOLE, 40, 2457753.5, 86400.9996 / 86401.0, NO_ROWS);
    told_by(name, call, "1972-01-01T00:00:00.000", 0, CT_RULE_DRIFTING, 13, 2441316.5, 1.0 - 0x1p-50, NO_ROWS);
    told_by(name, call, "", 6, 0, 0, nan_float(), 0.0, NO_ROWS);
    told_by(name, call, "", 1, 0, 0, -31739.5, 0.0, NO_ROWS);
    told_by(name, call, "", 14, 0, 0, nan_float(), 0.0, ct_no_rows, CT_TABLE_BYTES - 1);
}

static void text_form_calls(void)
{
    half_even_texts();
    expanded_texts();
    as_document_01("ct_to_iso8601_half_even", ct_to_iso8601_half_even, even_of);
    as_document_01("ct_to_iso8601_expanded", ct_to_iso8601_expanded, expanded_of);
}
