/* Replays a list of calls (`tests/lists calls`, format in tests/differential/driver/list.rs) from standard input, and
 * compares reports, results, the workspace's front and every element that must stay as it was. */
#include "meadowrut.h"

/* declared here, so that no header of the C library is needed */
int printf(const char *, ...);
long read(int, void *, size_t);

enum { RECORD = 4001, EDGES = 32770, VECTOR = 16, RESULTS = 200, W32 = 2300, W64 = 300, WF = 1400 };

static char record[RECORD];
static const char *at;
static uint32_t from[EDGES], to[EDGES], r32[RESULTS], w32[W32];
static uint64_t r64[RESULTS], w64[W64];
static double weight[EDGES], vector[VECTOR], rf[RESULTS], rb[RESULTS], wf[WF];

static const double FILL = 77.25;

static int fill(char *room, size_t length) {
    size_t have = 0;
    while (have < length) {
        long got = read(0, room + have, length - have);
        if (got <= 0)
            return 0;
        have += (size_t)got;
    }
    return 1;
}

static uint64_t word(void) {
    uint64_t value = 0;
    while (*at == ' ')
        at++;
    for (; *at > ' '; at++)
        value = value << 4 | (uint64_t)(*at <= '9' ? *at - '0' : *at - 'a' + 10);
    return value;
}

static double real(uint64_t bits) {
    union {
        uint64_t bits;
        double real;
    } both;
    both.bits = bits;
    return both.real;
}

static uint64_t bits(double x) {
    union {
        double real;
        uint64_t bits;
    } both;
    both.real = x;
    return x == x ? both.bits : UINT64_C(0x7ff8000000000000);
}

/* Runs a record; 0 if anything is not as it says. */
static int run(void) {
    at = record;
    unsigned call = (unsigned)word();
    size_t nodes = word();
    uint32_t directed = (uint32_t)word();
    size_t fl = word(), tl = word(), wl = word(), k = word();
    for (size_t i = 0; i < k; i++) {
        from[i] = (uint32_t)word();
        to[i] = (uint32_t)word();
        weight[i] = real(word());
    }
    uint64_t option = word();
    meadowrut_settings s;
    s.damping = real(word());
    s.tolerance = real(word());
    s.limit = word();
    uint32_t given = (uint32_t)word();
    size_t vl = word();
    for (size_t i = 0; i < vl; i++)
        vector[i] = real(word());
    size_t l32 = word(), l64 = word(), lf = word(), lb = word(), a = word(), b = word(), c = word();
    for (int i = 0; i < RESULTS; i++) {
        r32[i] = 77;
        r64[i] = 77;
        rf[i] = rb[i] = FILL;
    }
    for (int i = 0; i < W32; i++)
        w32[i] = 77;
    for (int i = 0; i < W64; i++)
        w64[i] = 77;
    for (int i = 0; i < WF; i++)
        wf[i] = FILL;

#define GRAPH nodes, directed, from, fl, to, tl, weight, wl
#define WORK w32, a, w64, b, wf, c
    meadowrut_report r = {0, 0, 0, {0, 0, 0}};
    meadowrut_election e = {0, 0};
    switch (call) {
    case 0: r.answer = meadowrut_degree(GRAPH, rf, lf); break;
    case 1: r.answer = meadowrut_in_degree(GRAPH, rf, lf); break;
    case 2: r.answer = meadowrut_out_degree(GRAPH, rf, lf); break;
    case 3: r.answer = meadowrut_survey(GRAPH, option, r32, l32, r64, l64, WORK); break;
    case 4: r.answer = meadowrut_betweenness(GRAPH, (uint32_t)option, rf, lf, WORK); break;
    case 5: r.answer = meadowrut_edge_betweenness(GRAPH, (uint32_t)option, rf, lf, rb, lb, WORK); break;
    case 6: r.answer = meadowrut_local_reaching(GRAPH, option, rf, lf, WORK); break;
    case 7: r.answer = meadowrut_global_reaching(GRAPH, rf, lf, WORK); break;
    case 8:
        e = meadowrut_voterank(GRAPH, option, r32, l32, WORK);
        r.answer = e.answer;
        break;
    case 9: r.answer = meadowrut_laplacian(GRAPH, rf, lf, WORK); break;
    case 10: r = meadowrut_pagerank(GRAPH, s, given, vector, vl, rf, lf, WORK); break;
    case 11: r = meadowrut_personalized_pagerank(GRAPH, s, given, vector, vl, rf, lf, WORK); break;
    case 12: r = meadowrut_eigenvector(GRAPH, s, rf, lf, WORK); break;
    default: r = meadowrut_katz(GRAPH, s, given, vector, vl, rf, lf, WORK); break;
    }
    for (size_t i = 0; i < k; i++) {
        from[i] = to[i] = 0;
        weight[i] = 0;
    }

    uint64_t answer = word(), settled = word(), rounds = word(), elected = word();
    int good = r.answer == answer && r.settled == settled && r.rounds == rounds && e.elected == elected;
    if (call >= 10 && answer == 0)
        good &= bits(r.settings.damping) == bits(s.damping) && bits(r.settings.tolerance) == bits(s.tolerance) &&
                r.settings.limit == s.limit;
    else
        good &= bits(r.settings.damping) == 0 && bits(r.settings.tolerance) == 0 && r.settings.limit == 0;
    size_t n = word();
    for (size_t i = 0; i < RESULTS; i++)
        good &= r32[i] == (i < n ? word() : 77);
    n = word();
    for (size_t i = 0; i < RESULTS; i++)
        good &= r64[i] == (i < n ? word() : 77);
    n = word();
    for (size_t i = 0; i < RESULTS; i++)
        good &= bits(rf[i]) == (i < n ? word() : bits(FILL));
    n = word();
    for (size_t i = 0; i < RESULTS; i++)
        good &= bits(rb[i]) == (i < n ? word() : bits(FILL));
    int ended = call > 2 && (answer == MEADOWRUT_DONE || answer == MEADOWRUT_PATHS || answer == MEADOWRUT_UNSETTLED);
    size_t front = ended ? MEADOWRUT_FRONT32(nodes, fl) : 0;
    for (size_t i = 0; i < W32; i++)
        good &= w32[i] == (i < front ? 0 : 77);
    front = ended ? MEADOWRUT_FRONT64(nodes, fl) : 0;
    for (size_t i = 0; i < W64; i++)
        good &= w64[i] == (i < front ? 0 : 77);
    front = ended ? MEADOWRUT_FRONTF(nodes, fl) : 0;
    for (size_t i = 0; i < WF; i++)
        good &= bits(wf[i]) == (i < front ? 0 : bits(FILL));
    return good;
}

int main(void) {
    int replayed = 0, wrong = 0;
    char length[6];
    while (fill(length, 6)) {
        size_t bytes = 0;
        for (int i = 0; i < 5; i++)
            bytes = 10 * bytes + (size_t)(length[i] - '0');
        if (bytes >= RECORD || !fill(record, bytes)) {
            printf("C replay: a faulty list\n");
            return 1;
        }
        record[bytes] = 0;
        if (record[0] == '#')
            continue;
        replayed++;
        if (!run()) {
            wrong++;
            printf("wrong: %s", record);
        }
    }
    printf("C replay: %d calls, %d wrong\n", replayed, wrong);
    return wrong != 0;
}
