/* Answers of ERFA under announced rows, stored by `compare 1500 1 sample`, held against the port bit for bit. Reads the lines from standard input.
   Exit status 1 where an answer differs or there are no lines. */
#include <inttypes.h>
#include <stdlib.h>

#include "announced.h"

static double read_float(void)
{
    uint64_t bits;
    double x;
    if (scanf("%" SCNx64, &bits) != 1) exit(2);
    memcpy(&x, &bits, sizeof x);
    return x;
}

static int read_number(void)
{
    int n;
    if (scanf("%d", &n) != 1) exit(2);
    return n;
}

int main(void)
{
    int call, lines = 0, wrong = 0;
    while (scanf("%d", &call) == 1) {
        a_case c;
        an_answer due, found;
        memset(&c, 0, sizeof c), memset(&due, 0, sizeof due);
        c.year = read_number(), c.month = read_number(), c.day = read_number();
        c.fraction = read_float(), c.jd1 = read_float(), c.jd2 = read_float(), c.dut1 = read_float();
        c.rows = read_number();
        for (int i = 0; i < c.rows; i++) c.months[i] = read_number(), c.seconds[i] = read_number();
        due.x = read_float(), due.y = read_float();
        for (int i = 0; call == TEXT && i < 7; i++) due.fields[i] = read_number();
        lines++;
        if (by_port(call, &c, &found) || memcmp(&due, &found, sizeof due)) wrong++, printf("line %d differs\n", lines);
    }
    printf("announced rows: %d stored answers, %d differ\n", lines, wrong);
    return wrong || !lines;
}
