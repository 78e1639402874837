/*
 * Deruvain: which neighbour a message may go to in a hypercube that has lost boards or links.
 *
 * A cube of dimension n, 1 to 10, has the nodes 0 to 2^n - 1. The neighbour of a node along
 * dimension i, 1 to n, differs from it in the bit of weight 2^(i-1).
 *
 * A report is one status byte and one 16-bit link word for each node. In a node's link word the
 * bit of weight 2^(i-1) marks its link along dimension i. A link counts as faulty if the word of
 * either end marks it, also of an end that isn't working.
 *
 * A vector is a 16-bit word with bit k, 1 to n, at weight 2^(k-1). Where bit k of a node is 1, it
 * reaches every working node at distance k by a shortest path.
 *
 * Every slice is a pointer and the number of its elements, all of which have some value. The
 * pointer is never null, not even with length 0, and is aligned for its elements: a uint16_t
 * slice starts at an even address. A slice that a job writes (its pointer is not const) overlaps
 * no other slice of the call. Slices that are only read may overlap each other.
 * Any other input is answered: a job refuses what it cannot use, by the lowest number that
 * applies (deruvain_open, deruvain_refresh and deruvain_update have orders of their own). The
 * refusals 1 to 6 and 10 to 12 change no memory. No function keeps a pointer, allocates, or
 * touches memory other than its slices, so calls from several threads need no lock as long as no
 * slice that one of them writes is used by another.
 *
 * Link with libderuvain.a, which `rt lib` in crates/deruvain writes to its out/.
 */
#ifndef DERUVAIN_H
#define DERUVAIN_H

#include <stddef.h>
#include <stdint.h>

#ifdef __cplusplus
extern "C" {
#endif

/* The version of this header, of the Rust crate and of the programs. */
#define DERUVAIN_VERSION "1.0.1"

/* The largest cube: its dimension, its nodes, the bytes of its record. */
#define DERUVAIN_LARGEST_N 10
#define DERUVAIN_LARGEST_NODES 1024
#define DERUVAIN_LARGEST_RECORD 3077

/* Status bytes. 1 to 4 are working boards, 5 to 253 late ones. */
#define DERUVAIN_BYTE_SILENT 0         /* never heard */
#define DERUVAIN_BYTE_HEARD 1          /* heard in the present sweep; one more for each sweep since */
#define DERUVAIN_BYTE_OLDEST_WORKING 4 /* heard three sweeps ago */
#define DERUVAIN_BYTE_FIRST_LATE 5     /* heard four sweeps ago */
#define DERUVAIN_BYTE_OLDEST_LATE 253  /* heard 252 sweeps ago, or before */
#define DERUVAIN_BYTE_DOWN 254         /* down, by its own word */
#define DERUVAIN_BYTE_EMPTY 255        /* empty slot */

/* Why a job refused. */
enum deruvain_refusal {
    DERUVAIN_ACCEPTED = 0,
    /* n not 1 to 10 */
    DERUVAIN_REFUSED_DIMENSION = 1,
    /* report or vectors not 2^n long; picks under n+1; path under n+2; at open a lent slice under 2^n;
       at restate a record without room for the status bytes */
    DERUVAIN_REFUSED_LENGTH = 2,
    /* some link word has a bit at weight 2^n or above */
    DERUVAIN_REFUSED_LINK_WORD = 3,
    /* node or relative address not below 2^n */
    DERUVAIN_REFUSED_ADDRESS = 4,
    /* source, or the node at hop, not working */
    DERUVAIN_REFUSED_SOURCE = 5,
    /* destination (at hop: node xor relative address) not working */
    DERUVAIN_REFUSED_DESTINATION = 6,
    /* no route by the rules */
    DERUVAIN_REFUSED_NO_ROUTE = 7,
    /* at decide: own bit says yes, no neighbour bears it out */
    DERUVAIN_REFUSED_NOT_BORNE_OUT = 8,
    /* at hop: no dimension to offer */
    DERUVAIN_REFUSED_NOTHING_TO_OFFER = 9,
    /* record malformed */
    DERUVAIN_REFUSED_MALFORMED = 10,
    /* a log's record cut short, or of another length or kind */
    DERUVAIN_REFUSED_LOG_RECORD = 11,
    /* a log's record has a node not below 2^n */
    DERUVAIN_REFUSED_LOG_NODE = 12
};

/* The class of a status byte: no byte itself. Only working boards are nonfaulty. */
enum deruvain_board_class {
    DERUVAIN_CLASS_SILENT = 0,  /* the byte 0 */
    DERUVAIN_CLASS_WORKING = 1, /* the bytes 1 to 4 */
    DERUVAIN_CLASS_LATE = 2,    /* the bytes 5 to 253 */
    DERUVAIN_CLASS_DOWN = 3,    /* the byte 254 */
    DERUVAIN_CLASS_EMPTY = 4    /* the byte 255 */
};

/* What deruvain_decide and deruvain_journey accepted. H is the distance of the two ends. */
enum deruvain_kind {
    DERUVAIN_HOME = 0,    /* the source is the destination; nothing offered, 0 hops */
    DERUVAIN_ASSURED = 1, /* the source's own bit promises a shortest path; H hops */
    DERUVAIN_LENT = 2,    /* a neighbour's bit promises a shortest path; H hops */
    DERUVAIN_DETOUR = 3   /* a spare neighbour promises a path; H + 2 hops */
};

/* What deruvain_hop accepted. */
enum deruvain_step {
    DERUVAIN_ARRIVED = 0,
    DERUVAIN_OFFERED = 1
};

/* The answer of decide, hop and journey. After a refusal the other fields are 0. */
struct deruvain_answer {
    uint32_t refusal; /* 0: accepted; else an enum deruvain_refusal */
    uint32_t kind;    /* an enum deruvain_kind; at hop an enum deruvain_step */
    uint32_t mask;    /* the dimensions offered: dimension i at weight 2^(i-1) */
    uint32_t hops;    /* from the source to the destination; at hop 0 */
};

/* The answer of open. After a refusal n is 0. */
struct deruvain_opened {
    uint32_t refusal;
    uint32_t n;
};

/* The answer of refresh and update. After a refusal skipped is 0. */
struct deruvain_refreshed {
    uint32_t refusal;
    size_t skipped; /* how many of the log's records are from the future */
};

/* What a refusal's number means, for a person. It does not call the library. */
static inline const char *deruvain_refusal_text(uint32_t number)
{
    switch (number) {
    case 0: return "accepted";
    case 1: return "n is not 1 to 10";
    case 2:
        return "the status bytes, link words or vectors are not 2^n, or picks, path or a lent slice are too short";
    case 3: return "a link word has a bit at weight 2^n or above";
    case 4: return "a node or a relative address is not below 2^n";
    case 5: return "the source, or the node at a hop, is not working";
    case 6: return "the destination is not working";
    case 7: return "there is no route by the rules";
    case 8: return "the source's own bit promises a path, and no neighbour bears it out";
    case 9: return "a later node has no dimension to offer";
    case 10: return "the record is malformed";
    case 11: return "a record of the log is cut short, or of another length or kind";
    case 12: return "a record of the log has a node that is not below 2^n";
    default: return "there is no such refusal";
    }
}

/* The class of a status byte, an enum deruvain_board_class. */
uint32_t deruvain_class(uint8_t byte);

/*
 * Writes the vectors of all 2^n nodes. Gives the refusal number, 0 for done.
 * Refuses by 1, 2, 3.
 */
uint32_t deruvain_fill(uint32_t n,
                       const uint8_t *status, size_t status_len,
                       const uint16_t *links, size_t links_len,
                       uint16_t *vectors, size_t vectors_len);

/*
 * At the source: which dimensions a message to the destination may take first.
 * Answers for any vectors, also wrong ones; bits above n are not read.
 * Refuses by 1, 2, 4, 5, 6, 7, 8.
 */
struct deruvain_answer deruvain_decide(uint32_t n,
                                       const uint8_t *status, size_t status_len,
                                       const uint16_t *links, size_t links_len,
                                       const uint16_t *vectors, size_t vectors_len,
                                       uint16_t source, uint16_t destination);

/*
 * At a later node: which dimensions a message may take next. The relative address is the
 * exclusive or of the node and the destination.
 * Answers for any vectors, also wrong ones; bits above n are not read.
 * Refuses by 1, 2, 4, 5, 6, 9.
 */
struct deruvain_answer deruvain_hop(uint32_t n,
                                    const uint8_t *status, size_t status_len,
                                    const uint16_t *links, size_t links_len,
                                    const uint16_t *vectors, size_t vectors_len,
                                    uint16_t node, uint16_t relative);

/*
 * Fills the vectors, decides and hops to the end. At hop j, with c dimensions offered, it takes
 * the offered dimension of rank picks[j-1] mod c, rank 0 the lowest. Writes the hops+1 node
 * numbers from source to destination into path. picks has at least n+1 elements, path n+2.
 * The mask is the source's offer.
 * Refuses by 1 to 7. After 7 the vectors are filled and the path is unchanged.
 */
struct deruvain_answer deruvain_journey(uint32_t n,
                                        const uint8_t *status, size_t status_len,
                                        const uint16_t *links, size_t links_len,
                                        uint16_t *vectors, size_t vectors_len,
                                        const uint8_t *picks, size_t picks_len,
                                        uint16_t *path, size_t path_len,
                                        uint16_t source, uint16_t destination);

/*
 * Reads a record: length (2 bytes, the bytes after this field), kind (2 bytes, here 1), n (1 byte),
 * 2^n status bytes, 2^n link words, all little-endian. Writes the first 2^n places of status and
 * links; later places stay unchanged. DERUVAIN_LARGEST_NODES places in each are enough for any
 * record.
 * Refuses by 10, 1, 10, 2, 3, in this order.
 */
struct deruvain_opened deruvain_open(const uint8_t *bytes, size_t bytes_len,
                                     uint8_t *status, size_t status_len,
                                     uint16_t *links, size_t links_len);

/*
 * Reads a status log: records of length (2 bytes, here 6), kind (2 bytes, here 2), sweep number
 * (2 bytes) and node number (2 bytes), all little-endian. The sweep given is the present one. A
 * record's age is the present sweep less its own, wrapping past 65535 to 0. A record of age 32768
 * or more is from the future: it is skipped, and counted. Writes all 2^n status bytes: the age of
 * a node's youngest record plus 1, but 253 from the age 252 on; 0 for a node that has no record
 * but skipped ones. In a log that is not refused, the order of the records does not matter.
 * Refuses by 1, 2, and then by 11, 12 for each record in the log's order, skipped ones too.
 */
struct deruvain_refreshed deruvain_refresh(uint32_t n, uint16_t sweep,
                                           const uint8_t *log, size_t log_len,
                                           uint8_t *status, size_t status_len);

/*
 * deruvain_refresh for a log that comes in parts, each of whole records of 8 bytes. Make all status
 * bytes 0 before the first part; each part then adds what it says, and of two records of a node the
 * younger one counts. The sum of what is skipped, and the status bytes after the last part, are
 * those that deruvain_refresh gives for the whole log.
 * Refuses as deruvain_refresh does. The status bytes are then as the earlier parts left them.
 */
struct deruvain_refreshed deruvain_update(uint32_t n, uint16_t sweep,
                                          const uint8_t *part, size_t part_len,
                                          uint8_t *status, size_t status_len);

/*
 * Puts status bytes over those of a record, from its sixth byte on: a record that deruvain_open
 * reads, with 2^n status bytes, is then one that it reads with the same n and link words and these
 * status bytes. Nothing but the length is looked at, so open the record first.
 * Gives the refusal number, 0 for done: 2 if bytes_len is under 5 + status_len.
 */
uint32_t deruvain_restate(uint8_t *bytes, size_t bytes_len,
                          const uint8_t *status, size_t status_len);

#ifdef __cplusplus
}
#endif

#endif
