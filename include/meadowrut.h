/* Meadowrut: proved graph scores over lent slices.
 *
 * Link target/staticlib/libmeadowrut.a, which tests/library builds (x86-64 Linux). Nothing is allocated, nothing is kept
 * between calls, and every call ends.
 *
 * What the proof assumes at this boundary, and the caller ensures:
 *   - a slice is a pointer followed by its length in elements; the pointer is aligned for its element and is not null
 *     unless the length is 0;
 *   - the elements exist for the whole length, and those of a result or workspace slice may be written;
 *   - no result or workspace slice overlaps any other slice of the same call;
 *   - nothing else writes to the slices during the call.
 * Everything else is checked: any numbers, any bits and any lengths may be passed.
 *
 * A graph has nodes 0 to nodes-1 and m edges in three slices of one length: from, to, weight. directed is 0 (undirected)
 * or not 0 (directed). Parallel edges and self-loops count each by itself.
 *
 * Answers. A call gives 0 (DONE) or the first refusal that applies; each call names its refusals in order. A refusal
 * leaves every result slice untouched, and fields of a returned struct other than `answer` are 0. Refusals 1 to 9 leave
 * the workspace untouched too. Without nodes, a call that never refuses EMPTY is DONE with nothing; an iterative one then
 * reports 0 rounds, settled 1.
 *
 * A score that is a NaN may have the bits of any NaN.
 *
 * Front and room. Every call that takes a workspace needs, and DONE, PATHS and UNSETTLED leave zero, the front
 *     w32: 8*nodes + 8*m + 8     w64: 2*nodes     wf: 6*nodes + 4*m
 * whatever was in it before; elements beyond it are left as they were. "Room" below is the length that a result slice
 * needs; elements beyond it are left as they were. A shorter front or room is ROOM.
 */
#ifndef MEADOWRUT_H
#define MEADOWRUT_H

#include <stddef.h>
#include <stdint.h>

#ifdef __cplusplus
extern "C" {
#endif

enum {
    MEADOWRUT_DONE = 0,
    MEADOWRUT_EMPTY = 1,      /* no nodes, where the measure has no answer for that */
    MEADOWRUT_SIZE = 2,       /* nodes > 4096, m > 32768, or from, to and weight of unequal length */
    MEADOWRUT_NODE = 3,       /* an endpoint, or the survey's start, is no node */
    MEADOWRUT_NUMBER = 4,     /* an infinity or a NaN among the numbers that the measure reads */
    MEADOWRUT_ROOM = 5,       /* a result or workspace slice is too short */
    MEADOWRUT_DAMPING = 6,    /* personalized PageRank: damping <= 0 or >= 1 */
    MEADOWRUT_ROUNDS = 7,     /* personalized PageRank: round limit 0 */
    MEADOWRUT_START = 8,      /* PageRank: the given start's sum is below 1e-9 in absolute value */
    MEADOWRUT_LENGTH = 9,     /* a given vector has not one entry for each node */
    MEADOWRUT_PATHS = 10,     /* a number of shortest paths exceeds 2^53 */
    MEADOWRUT_UNSETTLED = 11, /* eigenvector or Katz used all rounds and met no stop rule */
    MEADOWRUT_TEXT = 12       /* only in the text of meadowrut_run: a faulty line */
};

/* The most nodes and edges that a call takes, and the distance of a node that the survey does not reach. */
#define MEADOWRUT_NODES 4096
#define MEADOWRUT_EDGES 32768
#define MEADOWRUT_UNREACHED UINT32_C(4294967295)

/* The workspace's front, in elements. */
#define MEADOWRUT_FRONT32(nodes, m) (8 * (size_t)(nodes) + 8 * (size_t)(m) + 8)
#define MEADOWRUT_FRONT64(nodes, m) (2 * (size_t)(nodes))
#define MEADOWRUT_FRONTF(nodes, m) (6 * (size_t)(nodes) + 4 * (size_t)(m))

/* Settings of the iterative measures. For Katz, damping is alpha. Eigenvector does not read damping, and returns it. */
typedef struct {
    double damping;
    double tolerance;
    uint64_t limit; /* the most rounds to do */
} meadowrut_settings;

/* What an iterative measure reports. DONE: the scores are those after exactly `rounds` rounds, settled is 1 if a stop
 * rule was met and else 0, and settings are those given. */
typedef struct {
    uint32_t answer;
    uint32_t settled;
    uint64_t rounds;
    meadowrut_settings settings;
} meadowrut_report;

/* What VoteRank reports: how many nodes were elected. */
typedef struct {
    uint32_t answer;
    size_t elected;
} meadowrut_election;

/* What meadowrut_run reports: how many bytes of text were written. */
typedef struct {
    uint32_t answer;
    size_t length;
} meadowrut_text;

/* Degree: both ends of every edge; a self-loop adds two.
 * Refuses SIZE, NODE, ROOM. Room: scores nodes. No workspace. */
uint32_t meadowrut_degree(
    size_t nodes, uint32_t directed,
    const uint32_t *from, size_t from_len, const uint32_t *to, size_t to_len, const double *weight, size_t weight_len,
    double *scores, size_t scores_len);

/* In-degree: edges that enter; undirected, the degree.
 * Refuses SIZE, NODE, ROOM. Room: scores nodes. No workspace. */
uint32_t meadowrut_in_degree(
    size_t nodes, uint32_t directed,
    const uint32_t *from, size_t from_len, const uint32_t *to, size_t to_len, const double *weight, size_t weight_len,
    double *scores, size_t scores_len);

/* Out-degree: edges that leave; undirected, the degree.
 * Refuses SIZE, NODE, ROOM. Room: scores nodes. No workspace. */
uint32_t meadowrut_out_degree(
    size_t nodes, uint32_t directed,
    const uint32_t *from, size_t from_len, const uint32_t *to, size_t to_len, const double *weight, size_t weight_len,
    double *scores, size_t scores_len);

/* Survey from the node start: for each node the fewest hops and the number of hop sequences of that length, a choice
 * among parallel edges making a different one. Start: 0 and 1. Unreached: MEADOWRUT_UNREACHED and 0.
 * Refuses SIZE, EMPTY, NODE, ROOM, PATHS. Room: distances nodes, counts nodes. */
uint32_t meadowrut_survey(
    size_t nodes, uint32_t directed,
    const uint32_t *from, size_t from_len, const uint32_t *to, size_t to_len, const double *weight, size_t weight_len,
    size_t start,
    uint32_t *distances, size_t distances_len, uint64_t *counts, size_t counts_len,
    uint32_t *w32, size_t w32_len, uint64_t *w64, size_t w64_len, double *wf, size_t wf_len);

/* Betweenness of each node (Brandes 2001), from every node as a start. normalized is 0 or not 0. Normalized: times
 * 1/((nodes-1)*(nodes-2)) if nodes > 2, else as it is. Raw: undirected times 0.5, directed as it is.
 * Refuses SIZE, EMPTY, NODE, ROOM, PATHS. Room: scores nodes. */
uint32_t meadowrut_betweenness(
    size_t nodes, uint32_t directed,
    const uint32_t *from, size_t from_len, const uint32_t *to, size_t to_len, const double *weight, size_t weight_len,
    uint32_t normalized,
    double *scores, size_t scores_len,
    uint32_t *w32, size_t w32_len, uint64_t *w64, size_t w64_len, double *wf, size_t wf_len);

/* Betweenness of each edge: the total of its ordered pair (from, to) forward, of (to, from) back. Parallel edges share
 * their pair's total; a self-loop's is 0. Normalized and nodes > 1: times 1/(nodes*(nodes-1)) directed,
 * 2/(nodes*(nodes-1)) undirected. Raw: as it is; undirected is not halved. A directed call neither needs nor touches
 * back.
 * Refuses SIZE, EMPTY, NODE, ROOM, PATHS. Room: forward m; undirected, back m. */
uint32_t meadowrut_edge_betweenness(
    size_t nodes, uint32_t directed,
    const uint32_t *from, size_t from_len, const uint32_t *to, size_t to_len, const double *weight, size_t weight_len,
    uint32_t normalized,
    double *forward, size_t forward_len, double *back, size_t back_len,
    uint32_t *w32, size_t w32_len, uint64_t *w64, size_t w64_len, double *wf, size_t wf_len);

/* Local reaching: the share of the other nodes within `hops` hops; 0 for a single node.
 * Refuses SIZE, NODE, ROOM. Room: scores nodes. */
uint32_t meadowrut_local_reaching(
    size_t nodes, uint32_t directed,
    const uint32_t *from, size_t from_len, const uint32_t *to, size_t to_len, const double *weight, size_t weight_len,
    uint64_t hops,
    double *scores, size_t scores_len,
    uint32_t *w32, size_t w32_len, uint64_t *w64, size_t w64_len, double *wf, size_t wf_len);

/* Global reaching: the share of the other nodes that can be reached.
 * Refuses SIZE, NODE, ROOM. Room: scores nodes. */
uint32_t meadowrut_global_reaching(
    size_t nodes, uint32_t directed,
    const uint32_t *from, size_t from_len, const uint32_t *to, size_t to_len, const double *weight, size_t weight_len,
    double *scores, size_t scores_len,
    uint32_t *w32, size_t w32_len, uint64_t *w64, size_t w64_len, double *wf, size_t wf_len);

/* VoteRank: at most `seeds` nodes, in the order of their election; elements beyond the elected keep their bytes.
 * Refuses SIZE, NODE, ROOM. Room: elected the lesser of nodes and seeds. */
meadowrut_election meadowrut_voterank(
    size_t nodes, uint32_t directed,
    const uint32_t *from, size_t from_len, const uint32_t *to, size_t to_len, const double *weight, size_t weight_len,
    size_t seeds,
    uint32_t *elected, size_t elected_len,
    uint32_t *w32, size_t w32_len, uint64_t *w64, size_t w64_len, double *wf, size_t wf_len);

/* Laplacian: d*d + d + twice the neighbours' d, d the number of neighbour entries; an undirected self-loop is one entry.
 * Refuses SIZE, NODE, ROOM. Room: scores nodes. */
uint32_t meadowrut_laplacian(
    size_t nodes, uint32_t directed,
    const uint32_t *from, size_t from_len, const uint32_t *to, size_t to_len, const double *weight, size_t weight_len,
    double *scores, size_t scores_len,
    uint32_t *w32, size_t w32_len, uint64_t *w64, size_t w64_len, double *wf, size_t wf_len);

/* PageRank. Stops when the summed absolute change is below tolerance*nodes; running out of rounds is DONE, settled 0.
 * start is read only if given is not 0; it then has one entry for each node and is divided by its sum. Else every node
 * starts with 1/nodes. A node whose out-weight is exactly 0 dangles: every node gets the same part of its score. One
 * whose out-weight is negative neither dangles nor gives.
 * Reads weights, damping, tolerance and a given start.
 * Refuses SIZE, NODE, NUMBER, LENGTH, START, ROOM. Room: scores nodes. */
meadowrut_report meadowrut_pagerank(
    size_t nodes, uint32_t directed,
    const uint32_t *from, size_t from_len, const uint32_t *to, size_t to_len, const double *weight, size_t weight_len,
    meadowrut_settings settings, uint32_t given, const double *start, size_t start_len,
    double *scores, size_t scores_len,
    uint32_t *w32, size_t w32_len, uint64_t *w64, size_t w64_len, double *wf, size_t wf_len);

/* Personalized PageRank. Stops as PageRank does; running out of rounds is DONE, settled 0. personalization is read only
 * if given is not 0; it then has one entry for each node and is divided by its sum. One whose sum is not positive, or
 * that is not given, is uniform. A node whose out-weight is not above 0 dangles: its score goes by the personalization.
 * Reads weights, damping, tolerance and a given personalization.
 * Refuses SIZE, EMPTY, NODE, NUMBER, DAMPING, ROUNDS, LENGTH, ROOM. Room: scores nodes. */
meadowrut_report meadowrut_personalized_pagerank(
    size_t nodes, uint32_t directed,
    const uint32_t *from, size_t from_len, const uint32_t *to, size_t to_len, const double *weight, size_t weight_len,
    meadowrut_settings settings, uint32_t given, const double *personalization, size_t personalization_len,
    double *scores, size_t scores_len,
    uint32_t *w32, size_t w32_len, uint64_t *w64, size_t w64_len, double *wf, size_t wf_len);

/* Eigenvector, by power iteration on A + I from 1/sqrt(nodes) for each node. Settles when the root of the summed squared
 * change is below tolerance, when a round's norm is below 1e-10 (every score is then 1/sqrt(nodes)), or at once without
 * edges or nodes (the same scores). Running out of rounds is UNSETTLED.
 * Reads weights and tolerance.
 * Refuses SIZE, NODE, NUMBER, ROOM, UNSETTLED. Room: scores nodes. */
meadowrut_report meadowrut_eigenvector(
    size_t nodes, uint32_t directed,
    const uint32_t *from, size_t from_len, const uint32_t *to, size_t to_len, const double *weight, size_t weight_len,
    meadowrut_settings settings,
    double *scores, size_t scores_len,
    uint32_t *w32, size_t w32_len, uint64_t *w64, size_t w64_len, double *wf, size_t wf_len);

/* Katz: settings.damping is alpha; beta is read only if given is not 0, and then has one entry for each node, else it is
 * 1 for each. Scores start at 0, and each round begins from beta. The walks that leave a node count. Settles when the
 * root of the summed squared change is below tolerance; running out of rounds is UNSETTLED.
 * Reads weights, alpha, tolerance and a given beta.
 * Refuses SIZE, NODE, NUMBER, LENGTH, ROOM, UNSETTLED. Room: scores nodes. */
meadowrut_report meadowrut_katz(
    size_t nodes, uint32_t directed,
    const uint32_t *from, size_t from_len, const uint32_t *to, size_t to_len, const double *weight, size_t weight_len,
    meadowrut_settings settings, uint32_t given, const double *beta, size_t beta_len,
    double *scores, size_t scores_len,
    uint32_t *w32, size_t w32_len, uint64_t *w64, size_t w64_len, double *wf, size_t wf_len);

/* The command program's whole work: a job text in, its answer text out. Any bytes may be given; a fault or a refusal is
 * part of the text. The answer is DONE and length the bytes written, or ROOM with nothing read or written.
 * Room: output 32768. Elements beyond the length keep their bytes. Takes about 150 kilobytes of the stack. */
meadowrut_text meadowrut_run(const uint8_t *input, size_t input_len, uint8_t *output, size_t output_len);

/* The square root of IEEE 754, to nearest, ties to even. Both zeros are their own; below 0 it is a NaN. */
double meadowrut_sqrt(double x);

/* The absolute value: x with its sign cleared; a NaN stays a NaN. */
double meadowrut_abs(double x);

/* The greater of the two numbers, +0.0 above -0.0; beside a NaN the other one, and a NaN for two NaNs. */
double meadowrut_max(double x, double y);

/* The usual settings: damping 0.85, tolerance 1e-6, 100 rounds. */
meadowrut_settings meadowrut_usual(void);

#ifdef __cplusplus
}
#endif

#endif
