/*
 * The device side of virtio-iommu, for a hypervisor written in C (C99 or later) or C++.
 *
 * One device serves one to four guests over one mapping table. The hypervisor keeps two things for it:
 *
 *   - the state, a struct viommu_state. It is a value: each call takes the state and gives the next one back, and the
 *     caller hands that one in next time. The state that was handed in is copied, so it is never changed in place.
 *   - the table, VIOMMU_TABLE_WORDS words of 64 bits. It is lent for the length of a call. Some calls rewrite it.
 *
 * State and table belong together: hand in the state and the table as the last call left them. They need no release.
 *
 * WHAT A CALL KEEPS TO
 *
 *   - Nothing is kept between calls: no pointer, no global, no memory of the library's own.
 *   - Each call ends. None waits, takes a lock, allocates memory, does input or output, or calls back.
 *   - A parameter that is a pointer to const is only read. No call reads or writes outside what it was lent.
 *   - Any numbers at all may stand in state, table and buffers: what is not sound or not a request is refused.
 *
 * WHAT THE CALLER KEEPS TO
 *
 *   - A list or a buffer is a pointer, then a count of ELEMENTS (words of the table, bytes of a buffer), not of bytes.
 *   - Every pointer is not null and is aligned for its element, also where the count is 0: then any such pointer will do,
 *     for instance that of an unused array, and nothing is read or written through it. NULL with a count of 0 is not
 *     allowed for any list or buffer.
 *   - The buffers of one call do not overlap: neither with each other, nor with the table.
 *   - Nobody else writes to what is lent while the call runs, a guest neither: gather a request out of guest memory first.
 *   - Calls on one table do not run at the same time. Calls on different tables may.
 *   - VIOMMU_STACK_BYTES of stack are free, 20 KiB: the state crosses by value and is copied once on the way. (tests/c/stack.c
 *     measures every kind of call, with full and with empty tables and logs, and refusals; the most is 15,616 bytes, of which
 *     the caller's argument and result are 9,848.)
 *
 * The archive is code for x86-64 Linux by the System V ABI. It uses the SSE registers and the red zone below the stack
 * pointer, and needs no symbol but C's memcpy, memmove, memset and memcmp.
 *
 * The rules of set-up, requests, accesses and faults are document 01's, with reserved regions and PROBE as document 02's
 * first request has them. "Sound" and "good" below are document 01's terms.
 */
#ifndef VIOMMU_H
#define VIOMMU_H

#include <stddef.h>
#include <stdint.h>

/* SIZES */

#define VIOMMU_GUESTS 4                  /* guests at most, numbers 0 to 3 */
#define VIOMMU_ENDPOINTS 32              /* endpoints at most, of all guests together */
#define VIOMMU_REGIONS 4                 /* reserved regions at most, of one endpoint */
#define VIOMMU_REGION_WORDS 3            /* words of a reserved region */
#define VIOMMU_ENDPOINT_REGION_WORDS 13  /* words for an endpoint's: 1 + VIOMMU_REGIONS times VIOMMU_REGION_WORDS */
#define VIOMMU_REGION_PLACES 416         /* words for all: VIOMMU_ENDPOINTS times VIOMMU_ENDPOINT_REGION_WORDS */
#define VIOMMU_RECORDS 256               /* mapping records that the table has room for */
#define VIOMMU_RECORD_WORDS 5            /* words of a mapping record */
#define VIOMMU_TABLE_WORDS 1280          /* words of the table: VIOMMU_RECORDS times VIOMMU_RECORD_WORDS */
#define VIOMMU_FAULTS 16                 /* faults that a guest's log has room for */
#define VIOMMU_FAULT_PLACES 64           /* places of all logs: VIOMMU_GUESTS times VIOMMU_FAULTS */
#define VIOMMU_FAULT_BYTES 24            /* bytes of a fetched fault */
#define VIOMMU_LOST_LIMIT 65535          /* where a lost count stops */
#define VIOMMU_STATUS_BYTES 4            /* bytes of a status: the status, then three zeros */
#define VIOMMU_PROPERTY_BYTES 24         /* bytes of a property that PROBE writes */
#define VIOMMU_PROPERTIES_BYTES 128      /* bytes of all of them, with the zeros after the last */
#define VIOMMU_PROBE_BYTES 132           /* bytes of PROBE's writable part: VIOMMU_PROPERTIES_BYTES + VIOMMU_STATUS_BYTES */
#define VIOMMU_STACK_BYTES 20480         /* stack that is to be free for a call */

/* NUMBERS: what a call gives back, and what it leaves behind */

#define VIOMMU_DONE 0               /* done */
#define VIOMMU_NO_SUCH_GUEST 1      /* guest number not below the guest count: nothing changes */
#define VIOMMU_UNSOUND 2            /* table not of 1,280 words, or state and table not sound: nothing changes */
#define VIOMMU_UNKNOWN_TYPE 3       /* request type not 1 to 5: nothing changes */
#define VIOMMU_WRONG_LENGTH 4       /* readable part below 4 bytes, or a part's length not the type's: nothing changes */
#define VIOMMU_BAD_CONFIGURATION 5  /* configuration not good: table untouched, every number of the state is zero */
#define VIOMMU_UNKNOWN_ENDPOINT 6   /* access by an endpoint not listed: nothing changes */
#define VIOMMU_UNATTACHED 7         /* access blocked, endpoint unattached: fault logged */
#define VIOMMU_UNMAPPED 8           /* access blocked, no mapping permits it: fault logged */

/*
 * REQUESTS: the type is the first byte of the readable part. The status is the first of the last four bytes of the writable
 * part: byte 0 for types 1 to 4, which have no others, and byte VIOMMU_PROPERTIES_BYTES for PROBE.
 */

#define VIOMMU_ATTACH 1
#define VIOMMU_DETACH 2
#define VIOMMU_MAP 3
#define VIOMMU_UNMAP 4
#define VIOMMU_PROBE 5

#define VIOMMU_STATUS_OK 0
#define VIOMMU_STATUS_IOERR 1   /* virtio's, never given by this device */
#define VIOMMU_STATUS_UNSUPP 2  /* ATTACH: a record of the domain overlaps a reserved region of the endpoint */
#define VIOMMU_STATUS_DEVERR 3  /* virtio's, never given by this device */
#define VIOMMU_STATUS_INVAL 4   /* MAP: among others, a reserved region of an endpoint in the domain is overlapped */
#define VIOMMU_STATUS_RANGE 5
#define VIOMMU_STATUS_NOENT 6
#define VIOMMU_STATUS_FAULT 7
#define VIOMMU_STATUS_NOMEM 8

/* RESERVED REGIONS: the subtype of one */

#define VIOMMU_REGION_RESERVED 0
#define VIOMMU_REGION_MSI 1     /* where devices write interrupts: at most one for each endpoint */

/* ACCESSES AND FAULTS */

#define VIOMMU_READ 0   /* the kind of an access: 0 is a read */
#define VIOMMU_WRITE 1  /* and any other value a write */

#define VIOMMU_REASON_DOMAIN 1   /* a fault's reason: the endpoint was unattached */
#define VIOMMU_REASON_MAPPING 2  /* or no mapping permitted the access */

#define VIOMMU_FLAG_READ 1       /* of a mapping: reads go through; of a fault: it was a read */
#define VIOMMU_FLAG_WRITE 2      /* of a mapping: writes go through; of a fault: it was a write */
#define VIOMMU_FLAG_ADDRESS 256  /* of a fault: the address is given (always) */

#ifdef __cplusplus
extern "C" {
#endif

/* Guest and endpoint numbers are types of their own, so that the compiler refuses one for the other. */
struct viommu_guest {
    uint8_t number;
};

struct viommu_endpoint {
    uint32_t number;
};

/* The addresses, or the domain numbers, from start to end, both included. */
struct viommu_input_range {
    uint64_t start;
    uint64_t end;
};

struct viommu_domain_range {
    uint32_t start;
    uint32_t end;
};

/*
 * A reserved region of an endpoint, the addresses from start to end, both included: no record of a domain that the endpoint
 * is in overlaps it. It may lie anywhere, outside windows and ranges too, and need not be aligned. An access to it is decided
 * like any other, and as no record covers it, it is VIOMMU_UNMAPPED.
 */
struct viommu_region {
    uint64_t subtype; /* VIOMMU_REGION_RESERVED or VIOMMU_REGION_MSI */
    uint64_t start;   /* not above end */
    uint64_t end;
};

/*
 * The reserved regions of one endpoint: the first count of its places. No two of them overlap, and at most one is
 * VIOMMU_REGION_MSI. It is VIOMMU_ENDPOINT_REGION_WORDS words without padding, so an array of these is the list of words that
 * set-up is lent.
 */
struct viommu_regions {
    uint64_t count; /* at most VIOMMU_REGIONS */
    struct viommu_region region[VIOMMU_REGIONS];
};

/*
 * What set-up takes besides the endpoint lists. Guest g may hold shares[g] records, and its window is firsts[g] to
 * lasts[g], both included. Places from the guest count on are not looked at.
 */
struct viommu_settings {
    size_t guests;                      /* the guest count, 1 to 4 */
    uint32_t shares[VIOMMU_GUESTS];     /* together at most VIOMMU_RECORDS; 0 is allowed */
    uint64_t firsts[VIOMMU_GUESTS];
    uint64_t lasts[VIOMMU_GUESTS];
    uint64_t mask;                      /* page_size_mask, not 0: its lowest set bit is the granularity, of which a MAP's
                                           virt_start, phys_start and virt_end + 1 must be multiples */
    struct viommu_input_range input;    /* the addresses that a MAP may name */
    struct viommu_domain_range domains; /* the domains that an ATTACH may name */
};

/*
 * The device's state. The hypervisor keeps and copies it as it likes, may read it, and has no need to write it: a state
 * that was written by hand is taken if it is sound with its table, and is else refused with VIOMMU_UNSOUND.
 *
 * Endpoint i, below listed, has its number, owner, attached flag and domain at place i of four arrays, and its reserved
 * regions in the words of a struct viommu_regions, the first at place VIOMMU_ENDPOINT_REGION_WORDS * i. Fault j of guest g,
 * the oldest being fault 0, has its fields at place VIOMMU_FAULTS * g + j of four arrays. Places not in use are zero.
 */
struct viommu_state {
    struct viommu_settings settings;        /* as set-up took them, zero in places of guests that there are not */
    size_t listed;                          /* number of endpoints */
    uint32_t endpoints[VIOMMU_ENDPOINTS];   /* endpoint numbers */
    uint8_t owners[VIOMMU_ENDPOINTS];       /* their guests */
    uint8_t attached[VIOMMU_ENDPOINTS];     /* 1 attached, 0 not */
    uint32_t domains[VIOMMU_ENDPOINTS];     /* the domain, 0 where unattached */
    uint64_t regions[VIOMMU_REGION_PLACES]; /* reserved regions, which no call but set-up changes */
    size_t live;                            /* number of records in the table, which stand first */
    size_t logged[VIOMMU_GUESTS];           /* number of faults in each guest's log */
    uint32_t lost[VIOMMU_GUESTS];           /* faults that found a guest's log full */
    uint8_t reasons[VIOMMU_FAULT_PLACES];   /* VIOMMU_REASON_.. */
    uint32_t flags[VIOMMU_FAULT_PLACES];    /* VIOMMU_FLAG_.. */
    uint32_t sources[VIOMMU_FAULT_PLACES];  /* endpoint numbers */
    uint64_t addresses[VIOMMU_FAULT_PLACES];
};

/* What each call gives back: the next state, a number of the list above, and a value that is 0 on any number but 0. */
struct viommu_set_up_given {
    struct viommu_state state;
    uint8_t number;
};

struct viommu_request_given {
    struct viommu_state state;
    uint8_t number;
    size_t used; /* used length: bytes written into the writable part */
};

struct viommu_access_given {
    struct viommu_state state;
    uint8_t number;
    uint64_t address; /* where the access goes through to */
};

struct viommu_reset_given {
    struct viommu_state state;
    uint8_t number;
};

struct viommu_fetch_given {
    struct viommu_state state;
    uint8_t number;
    size_t count; /* number of faults written into the buffer */
};

/*
 * The bytes of a request's readable part, by its type byte: 20 for ATTACH and DETACH, 36 for MAP, 28 for UNMAP, 72 for
 * PROBE, 0 for any other type. To be asked before a buffer is gathered.
 */
size_t viommu_readable_length(uint8_t type);

/* The bytes of a request's writable part, by its type byte: 4 for types 1 to 4, 132 for PROBE, 0 for any other. */
size_t viommu_writable_length(uint8_t type);

/*
 * Sets a device up: endpoint endpoints[i] belongs to guest owners[i]. The two lists are only read, and their counts are to
 * be equal and at most VIOMMU_ENDPOINTS; lists of count 0 are good. The table may hold anything.
 *
 * The reserved regions are a third list that is only read: VIOMMU_ENDPOINT_REGION_WORDS words for each endpoint, in the
 * order of the endpoints, with the number of its regions, then subtype, start and end of each of VIOMMU_REGIONS places. What
 * stands in places from the number on is not looked at. region_words is to be VIOMMU_ENDPOINT_REGION_WORDS times
 * endpoint_count, and any other count is VIOMMU_BAD_CONFIGURATION: endpoints without regions have zeros, and a list of count 0
 * is good only where there are no endpoints, by a pointer that is not null even then. An array of struct viommu_regions holds
 * these words, and is lent by the pointer to its first:
 *
 *     static const struct viommu_regions regions[2] = {
 *         {2, {{VIOMMU_REGION_MSI, 0xfee00000, 0xfeefffff}, {VIOMMU_REGION_RESERVED, 0x1000, 0x1fff}}},
 *         {0},
 *     };
 *     viommu_set_up(settings, endpoints, 2, owners, 2, &regions[0].count, 2 * VIOMMU_ENDPOINT_REGION_WORDS,
 *                   table, VIOMMU_TABLE_WORDS);
 *
 *   VIOMMU_DONE               the table is all zero; in the state all endpoints are unattached, logs are empty
 *   VIOMMU_UNSOUND            table_words is not VIOMMU_TABLE_WORDS: table untouched, every number of the state is zero
 *   VIOMMU_BAD_CONFIGURATION  table untouched, every number of the state is zero
 *
 * The first that applies, in the order 2, 5, 0. On the all-zero state requests, resets and fetches get 1, and accesses 2.
 */
struct viommu_set_up_given viommu_set_up(struct viommu_settings settings,
                                         const uint32_t *endpoints, size_t endpoint_count,
                                         const uint8_t *owners, size_t owner_count,
                                         const uint64_t *regions, size_t region_words,
                                         uint64_t *table, size_t table_words);

/*
 * Works one request of a guest's. The readable part is only read.
 *
 *   VIOMMU_DONE           used is the writable part's length, 4 or, for PROBE, 132; its last four bytes are the status, then
 *                         three zeros. With VIOMMU_STATUS_OK, state and table are as the request asked, which PROBE leaves
 *                         unchanged; with any other status they are unchanged
 *   VIOMMU_NO_SUCH_GUEST, VIOMMU_UNSOUND, VIOMMU_UNKNOWN_TYPE, VIOMMU_WRONG_LENGTH
 *                         used is 0; state, table and the writable part are unchanged
 *
 * The first that applies, in the order 1, 2, 4 (readable part below 4 bytes), 3, 4 (a length not the type's), 0.
 *
 * The bytes of a readable part, little-endian, after the head (type 1, ignored 3):
 *
 *   VIOMMU_ATTACH, VIOMMU_DETACH   domain 4, endpoint 4, reserved 8
 *   VIOMMU_MAP                     domain 4, virt_start 8, virt_end 8, phys_start 8, flags 4
 *   VIOMMU_UNMAP                   domain 4, virt_start 8, virt_end 8, reserved 4
 *   VIOMMU_PROBE                   endpoint 4, ignored 64
 *
 * PROBE tells a guest the reserved regions of an endpoint of its own, attached or not. In the VIOMMU_PROPERTIES_BYTES before
 * the status each region, in set-up order, is a property of VIOMMU_PROPERTY_BYTES: type 2 (it is 1), length 2 (it is 20),
 * subtype 1, zeros 3, start 8, end 8, little-endian. All bytes after the last property are zero. For an endpoint that is not
 * listed or not this guest's the status is VIOMMU_STATUS_NOENT, and all VIOMMU_PROPERTIES_BYTES are written zero.
 */
struct viommu_request_given viommu_request(struct viommu_state state,
                                           uint64_t *table, size_t table_words,
                                           struct viommu_guest guest,
                                           const uint8_t *readable, size_t readable_bytes,
                                           uint8_t *writable, size_t writable_bytes);

/*
 * Decides one access of a device: kind is VIOMMU_READ or VIOMMU_WRITE. The table is only read.
 *
 *   VIOMMU_DONE              address is where the access goes through to; the state is unchanged
 *   VIOMMU_UNSOUND, VIOMMU_UNKNOWN_ENDPOINT
 *                            address is 0; the state is unchanged
 *   VIOMMU_UNATTACHED, VIOMMU_UNMAPPED
 *                            address is 0; the state has one fault more in the log of the endpoint's owner, or, where that
 *                            log is full, a lost count that is one higher, up to VIOMMU_LOST_LIMIT
 *
 * The first that applies, in the order 2, 6, 7, then 0 or 8.
 */
struct viommu_access_given viommu_access(struct viommu_state state,
                                         const uint64_t *table, size_t table_words,
                                         struct viommu_endpoint endpoint, uint64_t address, uint8_t kind);

/*
 * Resets a guest.
 *
 *   VIOMMU_DONE           the guest's endpoints are detached, its records gone from the table, its log empty, its lost
 *                         count 0; nothing of another guest's changes
 *   VIOMMU_NO_SUCH_GUEST, VIOMMU_UNSOUND
 *                         state and table are unchanged
 *
 * The first that applies, in the order 1, 2, 0.
 */
struct viommu_reset_given viommu_reset(struct viommu_state state,
                                       uint64_t *table, size_t table_words,
                                       struct viommu_guest guest);

/*
 * Fetches the oldest faults of a guest's log: as many as there are and fit whole into the buffer. The table is only read.
 *
 *   VIOMMU_DONE           count faults stand at the buffer's start, VIOMMU_FAULT_BYTES each, oldest first, and are gone from
 *                         the state's log; the buffer's bytes after them are unchanged, and so is the lost count
 *   VIOMMU_NO_SUCH_GUEST, VIOMMU_UNSOUND
 *                         count is 0; state and buffer are unchanged
 *
 * The first that applies, in the order 1, 2, 0. A fetched fault is little-endian: reason 1, zeros 3, flags 4, endpoint 4,
 * zeros 4, address 8.
 */
struct viommu_fetch_given viommu_fetch(struct viommu_state state,
                                       const uint64_t *table, size_t table_words,
                                       struct viommu_guest guest,
                                       uint8_t *buffer, size_t buffer_bytes);

/*
 * The number of records that a guest holds: its records among the first state.live of the table. Soundness is not tested,
 * and no table is too short or too long: what does not make a whole record is not counted.
 */
size_t viommu_held(struct viommu_state state,
                   const uint64_t *table, size_t table_words,
                   struct viommu_guest guest);

/* A guest's lost count, state.lost[guest.number]; 0 for a number that is VIOMMU_GUESTS or more. Soundness is not tested. */
uint32_t viommu_lost(struct viommu_state state, struct viommu_guest guest);

#ifdef __cplusplus
}
#endif

#endif
