/* Takes a status log into the record of cabinet F, 16 boards, and routes a message through it. */
#include <stdio.h>

#include "deruvain.h"

#define N 4
#define NODES (1 << N)
#define RECORD (5 + 3 * NODES)
#define SWEEP 2

/* A record of the status log. */
#define HEARD(sweep, board) 6, 0, 2, 0, (sweep) & 255, (sweep) >> 8, (board), 0

/* Sweep 0 came after 65535. Boards 3 and 6 have no record, the one of 4 is from the future, and 9 is late. */
static const uint8_t heard[] = {
    HEARD(65534, 1), HEARD(65534, 9),
    HEARD(65535, 0), HEARD(65535, 1), HEARD(65535, 8),
    HEARD(0, 2), HEARD(0, 8), HEARD(0, 10), HEARD(0, 11),
    HEARD(1, 5), HEARD(1, 7), HEARD(1, 12), HEARD(1, 13),
    HEARD(2, 12), HEARD(2, 13), HEARD(2, 14), HEARD(2, 15),
    HEARD(3, 4),
};

static const char *const kinds[] = {"home", "assured", "lent", "detour"};

/* Says why a job refused, if it did. */
static int refused(const char *job, uint32_t number)
{
    if (number != DERUVAIN_ACCEPTED)
        printf("%s: refused by %u: %s\n", job, (unsigned)number, deruvain_refusal_text(number));
    return number != DERUVAIN_ACCEPTED;
}

/* Reads the log in parts of 40 bytes, as from a file, and counts the records from the future. */
static uint32_t read_log(uint8_t *status, size_t *skipped)
{
    for (size_t at = 0; at < sizeof heard; at += 40) {
        size_t left = sizeof heard - at;
        struct deruvain_refreshed part = deruvain_update(N, SWEEP, heard + at, left < 40 ? left : 40, status, NODES);
        if (part.refusal != DERUVAIN_ACCEPTED)
            return part.refusal;
        *skipped += part.skipped;
    }
    return DERUVAIN_ACCEPTED;
}

static void print_status(const uint8_t *status)
{
    printf("the status bytes in sweep %d:", SWEEP);
    for (int node = 0; node < NODES; node++)
        printf(" %d", status[node]);
    printf("\n");
}

static void print_vectors(const uint16_t *vectors)
{
    for (int node = 0; node < NODES; node++) {
        printf("board %d has the vector ", node);
        for (int k = 0; k < N; k++)
            printf("%d", vectors[node] >> k & 1);
        printf("\n");
    }
}

static void print_offer(uint32_t mask)
{
    for (int i = 1; i <= N; i++)
        if (mask >> (i - 1) & 1)
            printf(" %d", i);
}

int main(void)
{
    uint8_t record[RECORD] = {RECORD - 2, 0, 1, 0, N};
    uint8_t status[NODES] = {DERUVAIN_BYTE_SILENT};
    uint16_t links[NODES] = {0};
    uint16_t vectors[NODES] = {0};
    const uint8_t picks[N + 1] = {0};
    uint16_t path[N + 2] = {0};
    const uint16_t source = 1, destination = 12;
    size_t skipped = 0;

    printf("deruvain %s, for up to %d boards\n", DERUVAIN_VERSION, DERUVAIN_LARGEST_NODES);
    if (refused("update", read_log(status, &skipped)))
        return 1;
    printf("records from the future: %u\n", (unsigned)skipped);
    if (refused("restate", deruvain_restate(record, RECORD, status, NODES)))
        return 1;

    if (refused("open", deruvain_open(record, RECORD, status, NODES, links, NODES).refusal))
        return 1;
    print_status(status);

    struct deruvain_answer answer = deruvain_journey(N, status, NODES, links, NODES, vectors, NODES,
                                                     picks, N + 1, path, N + 2, source, destination);
    if (refused("journey", answer.refusal))
        return 1;

    print_vectors(vectors);
    printf("from %d to %d: %s, %u hops\n", source, destination, kinds[answer.kind], (unsigned)answer.hops);
    printf("board %d may send along dimension", source);
    print_offer(answer.mask);
    printf(" (mask %u)\n", (unsigned)answer.mask);
    printf("the path with picks 0:");
    for (uint32_t j = 0; j <= answer.hops; j++)
        printf(" %d", path[j]);
    printf("\n");

    status[destination] = DERUVAIN_BYTE_DOWN;
    printf("with board %d down, ", destination);
    refused("journey", deruvain_journey(N, status, NODES, links, NODES, vectors, NODES,
                                        picks, N + 1, path, N + 2, source, destination).refusal);
    return 0;
}
