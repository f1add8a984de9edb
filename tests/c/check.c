/* Calls each function of include/meadowrut.h from C, and checks a result and, where it has one, a refusal that were worked out by hand.
 * Prints a line for each that is wrong, and a count. */
#include "meadowrut.h"

/* declared here, so that no header of the C library is needed */
int printf(const char *, ...);

enum { ROOM32 = 200, ROOM64 = 40, ROOMF = 200, SLOTS = 8, OUTPUT = 32768 };

static uint32_t w32[ROOM32];
static uint64_t w64[ROOM64];
static double wf[ROOMF];
static double scores[SLOTS], back[SLOTS];
static uint32_t small[SLOTS];
static uint64_t wide[SLOTS];
static uint8_t output[OUTPUT + 1];

#define WORK w32, ROOM32, w64, ROOM64, wf, ROOMF
#define SHORT w32, 7, w64, ROOM64, wf, ROOMF

typedef struct {
    size_t nodes;
    uint32_t directed;
    size_t m;
    uint32_t from[4], to[4];
    double weight[4];
} graph;

#define GRAPH(g) (g).nodes, (g).directed, (g).from, (g).m, (g).to, (g).m, (g).weight, (g).m

/* Document 01's small graphs. */
static const graph square = {4, 0, 4, {0, 1, 0, 2}, {1, 3, 2, 3}, {1, 1, 1, 1}};
static const graph doubled = {3, 1, 3, {0, 0, 1}, {1, 1, 2}, {1, 1, 1}};
static const graph path = {3, 0, 2, {0, 1}, {1, 2}, {1, 1}};
static const graph loop = {1, 0, 1, {0}, {0}, {1}};
static const graph arrow = {2, 1, 1, {0}, {1}, {1}};
static const graph alone = {4, 0, 0, {0}, {0}, {0}};
static const graph large = {4097, 1, 0, {0}, {0}, {0}};

static int wrong, checks;

static void expect(const char *what, int good) {
    checks++;
    if (!good) {
        wrong++;
        printf("wrong: %s\n", what);
    }
}

static int are(const double *found, size_t n, double a, double b, double c) {
    const double want[3] = {a, b, c};
    for (size_t i = 0; i < n; i++)
        if (found[i] != want[i])
            return 0;
    return 1;
}

/* Any bits in everything that a call may write. */
static void stir(void) {
    for (int i = 0; i < ROOM32; i++)
        w32[i] = 77;
    for (int i = 0; i < ROOM64; i++)
        w64[i] = 77;
    for (int i = 0; i < ROOMF; i++)
        wf[i] = 77;
    for (int i = 0; i < SLOTS; i++) {
        scores[i] = back[i] = 77;
        small[i] = 77;
        wide[i] = 77;
    }
    for (size_t i = 0; i < sizeof output; i++)
        output[i] = 77;
}

/* The front is zero and nothing after it was touched; results after the n-th were not touched either. */
static int tidy(const graph *g, size_t n) {
    for (size_t i = 0; i < ROOM32; i++)
        if (w32[i] != (i < MEADOWRUT_FRONT32(g->nodes, g->m) ? 0 : 77))
            return 0;
    for (size_t i = 0; i < ROOM64; i++)
        if (w64[i] != (i < MEADOWRUT_FRONT64(g->nodes, g->m) ? 0 : 77))
            return 0;
    for (size_t i = 0; i < ROOMF; i++)
        if (wf[i] != (i < MEADOWRUT_FRONTF(g->nodes, g->m) ? 0 : 77))
            return 0;
    for (size_t i = n; i < SLOTS; i++)
        if (scores[i] != 77)
            return 0;
    return 1;
}

static void degree(void) {
    expect("degree of a loop", meadowrut_degree(GRAPH(loop), scores, SLOTS) == 0 && are(scores, 1, 2, 0, 0));
    expect("degree of 4097 nodes", meadowrut_degree(GRAPH(large), scores, SLOTS) == MEADOWRUT_SIZE);
}

static void in_degree(void) {
    expect("in-degree", meadowrut_in_degree(GRAPH(doubled), scores, SLOTS) == 0 && are(scores, 3, 0, 2, 1));
    expect("in-degree, no room", meadowrut_in_degree(GRAPH(doubled), scores, 2) == MEADOWRUT_ROOM);
}

static void out_degree(void) {
    expect("out-degree", meadowrut_out_degree(GRAPH(doubled), scores, SLOTS) == 0 && are(scores, 3, 2, 1, 0));
    expect("out-degree of a null slice", meadowrut_out_degree(0, 1, NULL, 0, NULL, 0, NULL, 0, NULL, 0) == 0);
}

static void survey(void) {
    uint32_t answer = meadowrut_survey(GRAPH(square), 0, small, SLOTS, wide, SLOTS, WORK);
    expect("survey", answer == 0 && small[0] == 0 && small[1] == 1 && small[2] == 1 && small[3] == 2);
    expect("survey's counts", wide[0] == 1 && wide[1] == 1 && wide[2] == 1 && wide[3] == 2 && tidy(&square, 0));
    answer = meadowrut_survey(GRAPH(doubled), 2, small, SLOTS, wide, SLOTS, WORK);
    expect("survey of the unreached", answer == 0 && small[0] == MEADOWRUT_UNREACHED && wide[0] == 0);
    answer = meadowrut_survey(GRAPH(square), 4, small, SLOTS, wide, SLOTS, WORK);
    expect("survey from no node", answer == MEADOWRUT_NODE);
}

static void betweenness(void) {
    uint32_t answer = meadowrut_betweenness(GRAPH(doubled), 0, scores, SLOTS, WORK);
    expect("betweenness", answer == 0 && are(scores, 3, 0, 1, 0) && tidy(&doubled, 3));
    answer = meadowrut_betweenness(GRAPH(square), 0, scores, SLOTS, WORK);
    expect("betweenness of a square", answer == 0 && are(scores, 3, 0.5, 0.5, 0.5) && scores[3] == 0.5);
    answer = meadowrut_betweenness(0, 1, NULL, 0, NULL, 0, NULL, 0, 0, scores, SLOTS, WORK);
    expect("betweenness of nothing", answer == MEADOWRUT_EMPTY);
}

static void edge_betweenness(void) {
    uint32_t answer = meadowrut_edge_betweenness(GRAPH(path), 0, scores, SLOTS, back, SLOTS, WORK);
    expect("edge betweenness", answer == 0 && are(scores, 2, 2, 2, 0) && are(back, 2, 2, 2, 0) && tidy(&path, 2));
    answer = meadowrut_edge_betweenness(GRAPH(path), 0, scores, SLOTS, back, 1, WORK);
    expect("edge betweenness, no room", answer == MEADOWRUT_ROOM);
}

static void local_reaching(void) {
    uint32_t answer = meadowrut_local_reaching(GRAPH(path), 1, scores, SLOTS, WORK);
    expect("local reaching", answer == 0 && are(scores, 3, 0.5, 1, 0.5) && tidy(&path, 3));
    expect("local reaching, no front", meadowrut_local_reaching(GRAPH(path), 1, scores, SLOTS, SHORT) == MEADOWRUT_ROOM);
}

static void global_reaching(void) {
    uint32_t answer = meadowrut_global_reaching(GRAPH(doubled), scores, SLOTS, WORK);
    expect("global reaching", answer == 0 && are(scores, 3, 1, 0.5, 0) && tidy(&doubled, 3));
}

static void voterank(void) {
    meadowrut_election e = meadowrut_voterank(GRAPH(loop), 5, small, SLOTS, WORK);
    expect("VoteRank", e.answer == 0 && e.elected == 1 && small[0] == 0 && small[1] == 77 && tidy(&loop, 0));
    e = meadowrut_voterank(GRAPH(large), 5, small, SLOTS, WORK);
    expect("VoteRank of 4097 nodes", e.answer == MEADOWRUT_SIZE && e.elected == 0);
}

static void laplacian(void) {
    uint32_t answer = meadowrut_laplacian(GRAPH(path), scores, SLOTS, WORK);
    expect("Laplacian", answer == 0 && are(scores, 3, 6, 10, 6) && tidy(&path, 3));
    answer = meadowrut_laplacian(GRAPH(loop), scores, SLOTS, WORK);
    expect("Laplacian of a loop", answer == 0 && are(scores, 1, 4, 0, 0));
}

static int reports(meadowrut_report r, uint64_t rounds, uint32_t settled, meadowrut_settings s) {
    return r.answer == 0 && r.rounds == rounds && r.settled == settled && r.settings.damping == s.damping &&
           r.settings.tolerance == s.tolerance && r.settings.limit == s.limit;
}

static int refuses(meadowrut_report r, uint32_t answer) {
    return r.answer == answer && r.rounds == 0 && r.settled == 0 && r.settings.damping == 0 && r.settings.tolerance == 0 &&
           r.settings.limit == 0;
}

static void pagerank(void) {
    const meadowrut_settings s = {0.5, 0, 1};
    const double none[2] = {1, -1};
    meadowrut_report r = meadowrut_pagerank(GRAPH(arrow), s, 0, NULL, 0, scores, SLOTS, WORK);
    expect("PageRank", reports(r, 1, 0, s) && are(scores, 2, 0.375, 0.625, 0) && tidy(&arrow, 2));
    r = meadowrut_pagerank(GRAPH(arrow), s, 1, none, 2, scores, SLOTS, WORK);
    expect("PageRank from nothing", refuses(r, MEADOWRUT_START));
}

static void personalized_pagerank(void) {
    meadowrut_settings s = {0.5, 0, 1};
    const double first[2] = {3, 0};
    meadowrut_report r = meadowrut_personalized_pagerank(GRAPH(arrow), s, 1, first, 2, scores, SLOTS, WORK);
    expect("personalized PageRank", reports(r, 1, 0, s) && are(scores, 2, 0.5, 0.5, 0) && tidy(&arrow, 2));
    s.damping = 1;
    r = meadowrut_personalized_pagerank(GRAPH(arrow), s, 0, NULL, 0, scores, SLOTS, WORK);
    expect("personalized PageRank without return", refuses(r, MEADOWRUT_DAMPING));
}

static void eigenvector(void) {
    const meadowrut_settings s = {0, 1e-6, 0};
    meadowrut_report r = meadowrut_eigenvector(GRAPH(alone), s, scores, SLOTS, WORK);
    expect("eigenvector", reports(r, 0, 1, s) && are(scores, 3, 0.5, 0.5, 0.5) && scores[3] == 0.5 && tidy(&alone, 4));
    stir();
    r = meadowrut_eigenvector(GRAPH(arrow), s, scores, SLOTS, WORK);
    expect("eigenvector without rounds", refuses(r, MEADOWRUT_UNSETTLED) && tidy(&arrow, 0));
}

static void katz(void) {
    const meadowrut_settings s = {0.5, 0.1, 100};
    const double beta[3] = {1, 1, 1};
    meadowrut_report r = meadowrut_katz(GRAPH(arrow), s, 0, NULL, 0, scores, SLOTS, WORK);
    expect("Katz", reports(r, 3, 1, s) && are(scores, 2, 1.5, 1, 0) && tidy(&arrow, 2));
    r = meadowrut_katz(GRAPH(arrow), s, 1, beta, 3, scores, SLOTS, WORK);
    expect("Katz with a long beta", refuses(r, MEADOWRUT_LENGTH));
}

/* The output begins with this text, and nothing after it was touched. */
static int holds(const char *text, size_t length) {
    for (size_t i = 0; i < sizeof output; i++)
        if (output[i] != (i < length ? (uint8_t)text[i] : 77))
            return 0;
    return 1;
}

static void run(void) {
    static const char job[] = "measure=betweenness\nkind=undirected\nnodes=3\noption=0\nrounds=0\nfactor=0000000000000000\n"
                              "tolerance=0000000000000000\nedges=2\nedge=0,1,3ff0000000000000\nedge=1,2,3ff0000000000000\n";
    static const char want[] = "measure=betweenness\nanswer=0\nnodes=3\nrounds=0\nsettled=none\nscore=0,0000000000000000\n"
                               "score=1,3ff0000000000000\nscore=2,0000000000000000\n";
    static const char fault[] = "answer=12\nline=10\n";
    const uint8_t *input = (const uint8_t *)job;
    size_t length = sizeof job - 1;
    meadowrut_text t = meadowrut_run(input, length, output, OUTPUT - 1);
    expect("run, no room", t.answer == MEADOWRUT_ROOM && t.length == 0 && holds("", 0));
    t = meadowrut_run(input, length, output, OUTPUT);
    expect("run", t.answer == 0 && t.length == sizeof want - 1 && holds(want, sizeof want - 1));
    stir();
    t = meadowrut_run(input, length - 1, output, OUTPUT + 1);
    expect("run without the last newline", t.answer == 0 && t.length == sizeof fault - 1 && holds(fault, sizeof fault - 1));
    stir();
    t = meadowrut_run(NULL, 0, output, OUTPUT);
    expect("run of a null slice", t.answer == 0 && t.length == 17 && holds("answer=12\nline=1\n", 17));
}

static void roots(void) {
    double root = meadowrut_sqrt(0x1p-1074);
    expect("square root", meadowrut_sqrt(4) == 2 && 1 / meadowrut_sqrt(-0.0) < 0 && root == 0x1p-537);
}

static void absolute(void) {
    expect("absolute value", meadowrut_abs(-2.5) == 2.5 && 1 / meadowrut_abs(-0.0) > 0);
}

static void greater(void) {
    expect("maximum", meadowrut_max(-1, 2) == 2 && meadowrut_max(2, -1) == 2);
}

static void usual(void) {
    meadowrut_settings s = meadowrut_usual();
    expect("usual settings", s.damping == 0.85 && s.tolerance == 1e-6 && s.limit == 100);
}

/* A check for each call of the header. */
static void (*const all[])(void) = {
    degree, in_degree, out_degree, survey, betweenness, edge_betweenness, local_reaching, global_reaching, voterank,
    laplacian, pagerank, personalized_pagerank, eigenvector, katz, run, roots, absolute, greater, usual,
};

int main(void) {
    const int calls = sizeof all / sizeof all[0];
    for (int i = 0; i < calls; i++) {
        stir();
        all[i]();
    }
    printf("C interface: %d calls, %d results checked, %d wrong\n", calls, checks, wrong);
    return wrong != 0;
}
