/* igraph's times in seconds on a graph from standard input ("nodes directed m", then "from to weight" lines): the best of
 * several, of the processor's time as in main.rs. */
#include <igraph.h>
#include <stdio.h>
#include <time.h>

static double now(void) {
    struct timespec t;
    clock_gettime(CLOCK_THREAD_CPUTIME_ID, &t);
    return t.tv_sec + t.tv_nsec / 1e9;
}

enum { BETWEENNESS, EDGE_BETWEENNESS, PAGERANK, DEGREE, CALLS };

static const char *const names[CALLS] = {"betweenness", "edge_betweenness", "pagerank", "degree"};

static void call(int which, const igraph_t *g, igraph_bool_t directed, const igraph_vector_t *weights) {
    igraph_vector_t scores;
    igraph_vector_int_t degrees;
    igraph_vector_init(&scores, 0);
    igraph_vector_int_init(&degrees, 0);
    switch (which) {
    case BETWEENNESS:
        igraph_betweenness(g, &scores, igraph_vss_all(), directed, NULL);
        break;
    case EDGE_BETWEENNESS:
        igraph_edge_betweenness(g, &scores, directed, NULL);
        break;
    case PAGERANK:
        igraph_pagerank(g, IGRAPH_PAGERANK_ALGO_PRPACK, &scores, NULL, igraph_vss_all(), directed, 0.85, weights, NULL);
        break;
    case DEGREE:
        igraph_degree(g, &degrees, igraph_vss_all(), IGRAPH_ALL, IGRAPH_LOOPS);
        break;
    }
    igraph_vector_destroy(&scores);
    igraph_vector_int_destroy(&degrees);
}

int main(void) {
    long nodes, directed, m;
    igraph_t g;
    igraph_vector_int_t edges;
    igraph_vector_t weights;
    if (scanf("%ld %ld %ld", &nodes, &directed, &m) != 3)
        return 1;
    igraph_vector_int_init(&edges, 2 * m);
    igraph_vector_init(&weights, m);
    for (long i = 0; i < m; i++) {
        long from, to;
        double weight;
        if (scanf("%ld %ld %lf", &from, &to, &weight) != 3)
            return 1;
        VECTOR(edges)[2 * i] = from;
        VECTOR(edges)[2 * i + 1] = to;
        VECTOR(weights)[i] = weight;
    }
    igraph_create(&g, &edges, nodes, directed != 0);
    for (int which = 0; which < CALLS; which++) {
        double best = 1e9;
        double started = now();
        for (int turn = 0; turn == 0 || (turn == 1 && best < 4) || (turn < 200 && now() - started < 0.5); turn++) {
            double before = now();
            call(which, &g, directed != 0, &weights);
            double time = now() - before;
            best = time < best ? time : best;
        }
        printf("%s %.9f\n", names[which], best);
        fflush(stdout);
    }
    igraph_destroy(&g);
    return 0;
}
