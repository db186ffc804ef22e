/* The two functions of rowprover.h once more, by the best-known method in textbook C: linear in rows plus entries, words
 * taken straight from the bytes, no polynomial. It is the yardstick for times and instruction counts (docs/BENCH.md),
 * and no part of the product. */

#include "rowprover.h"
#include "words.h"

enum { MOST_ROWS = 256, MOST_COLUMNS = 256, MOST_ENTRIES = 1024, MATRICES = 3, BLINDERS = 3, ANSWERS = 4, TAIL = 6 };

struct circuit {
    uint32_t m, q, n;
    size_t end;                     /* in words */
    const uint8_t *entry[MATRICES]; /* each is three words: row, column, value */
    uint32_t entries[MATRICES];
};

/* 1 / k! */
static const uint32_t inverse_factorial[MOST_ROWS] = {
    1u, 1u, 1006632961u, 1677721601u, 1929379841u, 1996488705u, 1339381078u, 191340154u,
    1533866960u, 1065214516u, 911827820u, 1181038486u, 433964194u, 497981689u, 1905031333u, 395437545u,
    905518687u, 1948104319u, 2009645832u, 2013075390u, 1107286730u, 1874254249u, 1823923034u, 1567367117u,
    1659142484u, 1757509073u, 919362854u, 332312094u, 443282415u, 1195475968u, 174066927u, 330335372u,
    1268614181u, 1197595960u, 1456352296u, 846916434u, 1030158417u, 1877870263u, 1056050599u, 285189236u,
    208456323u, 1871038081u, 1147051292u, 869438090u, 1575465441u, 1779840808u, 1526758307u, 1274712128u,
    697645143u, 753804729u, 55341413u, 1935399442u, 269519134u, 954739003u, 651486290u, 1659062777u,
    1144112613u, 1185647158u, 1825439225u, 1225249940u, 1362598113u, 847446658u, 987829424u, 1677423132u,
    1158671817u, 1194811951u, 1634816754u, 1346545034u, 671152872u, 1235193066u, 995517634u, 1942219722u,
    194747434u, 1629827901u, 1518370994u, 1657701229u, 313205610u, 1965040905u, 722092574u, 646249881u,
    989545260u, 608739844u, 891296500u, 1175036876u, 109858340u, 948711708u, 1790196764u, 1015639441u,
    720760034u, 1274872490u, 1580038744u, 747448507u, 555207571u, 438930387u, 1782340445u, 1078375121u,
    1667983155u, 349280803u, 1256719408u, 846470931u, 1800271379u, 57691121u, 612440536u, 1862841777u,
    2011819535u, 1648946884u, 965209839u, 554672164u, 1496443943u, 1472884878u, 782091396u, 1258535495u,
    1898673725u, 408765699u, 798295896u, 252034946u, 522844936u, 1948905077u, 818410198u, 1394169880u,
    1353795363u, 593538038u, 1754096112u, 14260944u, 1234052185u, 251464328u, 257648564u, 984882958u,
    1800759359u, 872328566u, 842989910u, 1650858347u, 1125903565u, 1310276487u, 265192516u, 434443735u,
    1912836379u, 263783628u, 1577510892u, 981772141u, 1718288691u, 140692780u, 1191936832u, 1627395229u,
    1171725463u, 1840847083u, 495240783u, 948371356u, 768184209u, 207833376u, 1934120840u, 426128241u,
    95519669u, 1671766612u, 115440870u, 1624346329u, 152373535u, 1116601966u, 414817161u, 1180179546u,
    1693486331u, 1948755926u, 956524481u, 1920323572u, 1042894274u, 18522183u, 982488324u, 1464596795u,
    739725107u, 1231397130u, 480953141u, 932917900u, 1597308623u, 323442130u, 163845776u, 507128836u,
    1055270418u, 381316643u, 850428431u, 702083327u, 820391642u, 527314309u, 213073444u, 23167242u,
    678508991u, 1570750279u, 1296502123u, 1675682994u, 373014491u, 1738282326u, 1640953864u, 725356212u,
    129607017u, 553537310u, 1476480918u, 905798031u, 590112018u, 1290668112u, 921639399u, 996088943u,
    176108048u, 1753719623u, 536914918u, 171243525u, 1214720352u, 1459405252u, 632565166u, 1043729559u,
    1950529710u, 982250659u, 685353005u, 98663565u, 1852290180u, 660880933u, 1160245744u, 1466184788u,
    1162551662u, 1016629203u, 568008488u, 1252840976u, 1872541313u, 1712005740u, 769488032u, 454855534u,
    1889467406u, 1923237220u, 1736711619u, 1683894144u, 961037779u, 1815256845u, 576858877u, 124513341u,
    859645860u, 444361407u, 1576376175u, 435062435u, 1068191960u, 1924330338u, 1429214307u, 283962300u,
    1511132617u, 724697103u, 776687718u, 1693345414u, 947564182u, 1795263408u, 252818053u, 1973535105u,
    194671981u, 1108482342u, 2001593723u, 553401101u, 249859701u, 1123005354u, 733635709u, 89723768u,
};

static uint32_t plus(uint32_t a, uint32_t b)
{
    uint32_t sum = a + b;
    return sum >= ROWPROVER_PRIME ? sum - ROWPROVER_PRIME : sum;
}

static uint32_t minus(uint32_t a, uint32_t b)
{
    return a >= b ? a - b : a + ROWPROVER_PRIME - b;
}

static uint32_t times(uint32_t a, uint32_t b)
{
    return (uint32_t)((uint64_t)a * b % ROWPROVER_PRIME);
}

/* By Fermat. */
static uint32_t inverse(uint32_t a)
{
    uint32_t power = 1;
    for (uint32_t exponent = ROWPROVER_PRIME - 2; exponent > 0; exponent /= 2) {
        if (exponent % 2 == 1)
            power = times(power, a);
        a = times(a, a);
    }
    return power;
}

static uint64_t refused(unsigned number, size_t place)
{
    return (uint64_t)place << 8 | number;
}

static int well_sized(size_t length)
{
    return length <= ROWPROVER_MOST_BYTES && length % 4 == 0;
}

/* 3, 4, 5 entry by entry; `at` is the index of the first entry's first word. */
static uint64_t read_entries(const struct circuit *c, const uint8_t *entry, uint32_t entries, size_t at)
{
    uint32_t row_before = 0, column_before = 0;
    for (uint32_t e = 0; e < entries; e++, entry += 12, at += 3) {
        uint32_t row = get_word(entry, 0), column = get_word(entry, 1), value = get_word(entry, 2);
        if (row < 1 || row > c->m || column < 1 || column > c->n)
            return refused(ROWPROVER_POSITION, at);
        if (value < 1 || value >= ROWPROVER_PRIME)
            return refused(ROWPROVER_VALUE, at);
        if (row < row_before || (row == row_before && column <= column_before))
            return refused(ROWPROVER_ORDER, at);
        row_before = row;
        column_before = column;
    }
    return ROWPROVER_DONE;
}

/* The circuit that the words begin with. */
static uint64_t read_circuit(const uint8_t *bytes, size_t words, struct circuit *c)
{
    if (words < 3)
        return refused(ROWPROVER_CIRCUIT, words);
    c->m = get_word(bytes, 0);
    c->q = get_word(bytes, 1);
    c->n = get_word(bytes, 2);
    if (c->m < 1 || c->m > MOST_ROWS)
        return refused(ROWPROVER_RANGE, 0);
    if (c->n < 1 || c->n > MOST_COLUMNS)
        return refused(ROWPROVER_RANGE, 2);
    if (c->q < 1 || c->q > c->n)
        return refused(ROWPROVER_RANGE, 1);
    size_t at = 3;
    for (int matrix = 0; matrix < MATRICES; matrix++) {
        if (at == words)
            return refused(ROWPROVER_CIRCUIT, words);
        uint32_t entries = get_word(bytes, at);
        if (entries > MOST_ENTRIES)
            return refused(ROWPROVER_RANGE, at);
        at++;
        if (words - at < 3 * (size_t)entries)
            return refused(ROWPROVER_CIRCUIT, words);
        c->entry[matrix] = bytes + 4 * at;
        c->entries[matrix] = entries;
        uint64_t found = read_entries(c, c->entry[matrix], entries, at);
        if (found != ROWPROVER_DONE)
            return found;
        at += 3 * (size_t)entries;
    }
    c->end = at;
    return ROWPROVER_DONE;
}

/* 7 over a public section or an assignment, counts included. */
static uint64_t read_values(const uint8_t *section, size_t words)
{
    if (get_word(section, 1) != 1)
        return refused(ROWPROVER_ASSIGNED, 1);
    for (size_t i = 0; i < words; i++)
        if (get_word(section, i) >= ROWPROVER_PRIME)
            return refused(ROWPROVER_ASSIGNED, i);
    return ROWPROVER_DONE;
}

/* 12 over blinders or answers, then 11. */
static uint64_t read_query(const uint8_t *first, size_t words, uint32_t point, uint32_t m)
{
    for (size_t i = 0; i < words; i++)
        if (get_word(first, i) >= ROWPROVER_PRIME)
            return refused(ROWPROVER_WORD, i);
    if (point >= ROWPROVER_PRIME || (point >= 1 && point <= m))
        return refused(ROWPROVER_POINT, 0);
    return ROWPROVER_DONE;
}

/* The basis values at s of the points 1..m, and the target's value. That of i is the product of s - k over the other
 * points k, over (i - 1)! (m - i)!, with a sign: products from the front first, then those from the back over them. */
static uint32_t basis_values(uint32_t m, uint32_t s, uint32_t *basis)
{
    uint32_t before = 1, after = 1;
    for (uint32_t i = 1; i <= m; i++) {
        basis[i - 1] = before;
        before = times(before, minus(s, i));
    }
    for (uint32_t i = m; i >= 1; i--) {
        uint32_t scale = times(inverse_factorial[i - 1], inverse_factorial[m - i]);
        uint32_t size = times(times(basis[i - 1], after), scale);
        basis[i - 1] = (m - i) % 2 == 0 ? size : minus(0, size);
        after = times(after, minus(s, i));
    }
    return before;
}

/* Row sums of a matrix over all columns and over the private ones, in one pass; w holds the values from w[1] on. */
static void add_entries(const struct circuit *c, int matrix, const uint32_t *w, uint32_t *all, uint32_t *own)
{
    const uint8_t *entry = c->entry[matrix];
    for (uint32_t e = 0; e < c->entries[matrix]; e++, entry += 12) {
        uint32_t row = get_word(entry, 0) - 1, column = get_word(entry, 1);
        uint32_t term = times(get_word(entry, 2), w[column]);
        all[row] = plus(all[row], term);
        if (column > c->q)
            own[row] = plus(own[row], term);
    }
}

static uint32_t dot(const uint32_t *y, const uint32_t *basis, uint32_t m)
{
    uint32_t sum = 0;
    for (uint32_t i = 0; i < m; i++)
        sum = plus(sum, times(y[i], basis[i]));
    return sum;
}

uint64_t rowprover_answers(const uint8_t *job, size_t job_len, uint8_t *out, size_t out_len)
{
    if (!well_sized(job_len))
        return refused(ROWPROVER_SHAPE, 0);
    struct circuit c;
    uint64_t found = read_circuit(job, job_len / 4, &c);
    if (found != ROWPROVER_DONE)
        return found;
    const uint8_t *assignment = job + 4 * c.end;
    size_t rest = job_len / 4 - c.end, assigned = (size_t)c.n + 2;
    if (rest < assigned || get_word(assignment, 0) != c.q || get_word(assignment, c.q + 1) != c.n - c.q)
        return refused(ROWPROVER_SECTION, 0);
    found = read_values(assignment, assigned);
    if (found != ROWPROVER_DONE)
        return found;
    const uint8_t *tail = assignment + 4 * assigned;
    if (rest - assigned != TAIL || get_word(tail, 0) != BLINDERS || get_word(tail, 4) != 1)
        return refused(ROWPROVER_SHAPE, 0);
    uint32_t s = get_word(tail, 5);
    found = read_query(tail + 4, BLINDERS, s, c.m);
    if (found != ROWPROVER_DONE)
        return found;
    if (out_len != ROWPROVER_ANSWERS_BYTES)
        return refused(ROWPROVER_OUTPUT, ROWPROVER_ANSWERS_BYTES);

    uint32_t w[MOST_COLUMNS + 1];
    for (uint32_t j = 1; j <= c.n; j++)
        w[j] = get_word(assignment, j <= c.q ? j : j + 1);
    uint32_t all[MATRICES][MOST_ROWS] = {{0}}, own[MATRICES][MOST_ROWS] = {{0}};
    for (int matrix = 0; matrix < MATRICES; matrix++)
        add_entries(&c, matrix, w, all[matrix], own[matrix]);
    for (uint32_t i = 0; i < c.m; i++)
        if (times(all[0][i], all[1][i]) != all[2][i])
            return refused(ROWPROVER_ROW, i + 1);

    uint32_t basis[MOST_ROWS], blinded[MATRICES];
    uint32_t z = basis_values(c.m, s, basis);
    for (int matrix = 0; matrix < MATRICES; matrix++) {
        uint32_t blind = times(get_word(tail, 1 + (size_t)matrix), z);
        put_word(out, (size_t)matrix, plus(dot(own[matrix], basis, c.m), blind));
        blinded[matrix] = plus(dot(all[matrix], basis, c.m), blind);
    }
    put_word(out, 3, times(minus(times(blinded[0], blinded[1]), blinded[2]), inverse(z)));
    return ROWPROVER_DONE;
}

uint64_t rowprover_check(const uint8_t *circuit, size_t circuit_len,
                         const uint8_t *public_section, size_t public_len,
                         const uint8_t *query, size_t query_len)
{
    if (!well_sized(circuit_len) || !well_sized(public_len) || query_len != ROWPROVER_QUERY_BYTES)
        return refused(ROWPROVER_SHAPE, 0);
    struct circuit c;
    uint64_t found = read_circuit(circuit, circuit_len / 4, &c);
    if (found != ROWPROVER_DONE)
        return found;
    if (c.end != circuit_len / 4)
        return refused(ROWPROVER_CIRCUIT, circuit_len / 4);
    if (public_len / 4 != (size_t)c.q + 1 || get_word(public_section, 0) != c.q)
        return refused(ROWPROVER_SECTION, 0);
    found = read_values(public_section, public_len / 4);
    if (found != ROWPROVER_DONE)
        return found;
    uint32_t s = get_word(query, 0);
    found = read_query(query + 4, ANSWERS, s, c.m);
    if (found != ROWPROVER_DONE)
        return found;

    uint32_t basis[MOST_ROWS], sum[MATRICES];
    uint32_t z = basis_values(c.m, s, basis);
    for (int matrix = 0; matrix < MATRICES; matrix++) {
        const uint8_t *entry = c.entry[matrix];
        sum[matrix] = get_word(query, 1 + (size_t)matrix);
        for (uint32_t e = 0; e < c.entries[matrix]; e++, entry += 12) {
            uint32_t row = get_word(entry, 0), column = get_word(entry, 1);
            if (column <= c.q) {
                uint32_t term = times(get_word(entry, 2), get_word(public_section, column));
                sum[matrix] = plus(sum[matrix], times(term, basis[row - 1]));
            }
        }
    }
    int equal = minus(times(sum[0], sum[1]), sum[2]) == times(z, get_word(query, 4));
    return equal ? ROWPROVER_DONE : refused(ROWPROVER_EQUALITY, 0);
}
