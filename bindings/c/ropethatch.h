/* ropethatch.h: the Ropethatch attribute server, called from C11 or C++11. Link with libropethatch.a (x86-64 Linux only). The library needs
   memcpy and memset, from any C library or your own, and nothing else.

   The library allocates nothing and keeps nothing between calls. The hub is yours: you lend its parts to each call, the same ones
   every time, and the call changes them in place. They are
     - the row of slots: 8, one for each tablet (the Bluetooth peer) that the hub knows;
     - the list: one record for each attribute, at most 64;
     - the store: the bytes of the shared values, at most 4096;
     - the tables: 8, one beside each slot, with the client values of that slot's tablet;
     - for each link one prepared write and its 512 bytes.
   Lay out the list and the store, call ropethatch_new once, and give all the other calls what it left.

   What you must see to, since nothing can test it:
     - No pointer is NULL, not even beside a count of 0 (see ROPETHATCH_NO_BYTES).
     - A pointer leads to as many elements as its count says. A count is one of elements, not of bytes: slots_count is 8, not 64.
       `bytes` of ropethatch_process is 512 bytes, `out` of ropethatch_get_client_att_table 640; these have no count.
     - No two ranges that you lend to one call overlap.
     - One call at a time on one hub: there is no lock inside. Calls on different hubs may run at once.
     - No alignment is needed beyond what the structs below have by themselves; their sizes and alignments are asserted below.
   Everything else is tested, so that any other input is answered, never undefined.

   What a call answers is a ropethatch_reply. Look at its `status` first:
     DONE      the call did it; for a question the answer is yes (YES is the same number, and it is 0: compare, do not use it as a truth)
     NOTHING   there is no answer to send, no such table, or the answer is no (NO is the same number)
     VALUE     `len` bytes stand at the start of the buffer that you lent; `len` may be 0. The bytes after them are as you lent them
               (saved_length changes none: `len` bytes at the start of what you lent are the table)
     ATT       an ATT error, its code in `code`. Only get, set, can_read and can_write answer this
     REFUSED   the call was refused, the number of the refusal in `code`. Every byte that you lent is as it was
   ropethatch_process never answers ATT: an ATT error is a response of 5 bytes, to be sent like any other, so its status is VALUE.
   Where several refusals apply the lowest number is told, and any refusal comes before an ATT code.
   Fields that a status does not name are 0.

   The header leaves no macro defined but the one against a second inclusion, ROPETHATCH_H. */
#ifndef ROPETHATCH_H
#define ROPETHATCH_H

#include <stddef.h>
#include <stdint.h>

#ifdef __cplusplus
extern "C" {
#endif

/* Sizes. */
enum {
    ROPETHATCH_SLOTS = 8,            /* slots_count and tables_count of every call; another count is refused 1 */
    ROPETHATCH_RECORD_SIZE = 32,     /* bytes of a list record */
    ROPETHATCH_TABLE_SIZE = 640,     /* bytes of a table */
    ROPETHATCH_PREPARED_SIZE = 512,  /* bytes beside a prepared write */
    ROPETHATCH_LIST_MAX = 64,        /* records in a list */
    ROPETHATCH_STORE_MAX = 4096,     /* bytes in a store */
    ROPETHATCH_CAPACITY_MAX = 512,   /* bytes of a value */
    ROPETHATCH_HANDLE_MAX = 0x7FFF,  /* handles go from 1 to this */
    ROPETHATCH_RESPONSE_MIN = 23,    /* bytes of a response buffer, at least */
    ROPETHATCH_RESPONSE_MAX = 517    /* and at most */
};

/* ropethatch_reply.status */
enum {
    ROPETHATCH_STATUS_DONE = 0,
    ROPETHATCH_STATUS_YES = 0,
    ROPETHATCH_STATUS_NOTHING = 1,
    ROPETHATCH_STATUS_NO = 1,
    ROPETHATCH_STATUS_VALUE = 2,
    ROPETHATCH_STATUS_ATT = 3,
    ROPETHATCH_STATUS_REFUSED = 4
};

/* ropethatch_reply.code where the status is REFUSED. No call of this header is refused 5. */
enum {
    ROPETHATCH_REFUSAL_STATE = 1,    /* the list, the store, the slots, the tables or the prepared write are not valid */
    ROPETHATCH_REFUSAL_BUFFER = 2,   /* process: out_count under 23 or over 517, or a Prepare Write value longer than out_count - 5 */
    ROPETHATCH_REFUSAL_IDENTITY = 3, /* the identity is empty (all zeros) or its kind is above 1 */
    ROPETHATCH_REFUSAL_TABLE = 4,    /* set_client_att_table, saved_length: the saved bytes are no table */
    ROPETHATCH_REFUSAL_SIZE = 6,     /* new: the list's client values would need a table of more than 640 bytes */
    ROPETHATCH_REFUSAL_SLOT = 7,     /* connect: every slot is another, connected tablet's */
    ROPETHATCH_REFUSAL_HANDLE = 8,   /* get, set: the list has no such handle */
    ROPETHATCH_REFUSAL_LENGTH = 9    /* set: the value is fixed and the data are not as long as its capacity */
};

/* ropethatch_reply.code where the status is ATT, and the fifth byte of an ATT error response. */
enum {
    ROPETHATCH_ATT_INVALID_HANDLE = 0x01, /* also: the link is gone */
    ROPETHATCH_ATT_READ_NOT_PERMITTED = 0x02,
    ROPETHATCH_ATT_WRITE_NOT_PERMITTED = 0x03,
    ROPETHATCH_ATT_INVALID_PDU = 0x04,
    ROPETHATCH_ATT_INSUFFICIENT_AUTHENTICATION = 0x05,
    ROPETHATCH_ATT_INVALID_OFFSET = 0x07,
    ROPETHATCH_ATT_PREPARE_QUEUE_FULL = 0x09,
    ROPETHATCH_ATT_NOT_FOUND = 0x0A, /* also: the tablet has no slot, so no client value */
    ROPETHATCH_ATT_INVALID_LENGTH = 0x0D,
    ROPETHATCH_ATT_INSUFFICIENT_ENCRYPTION = 0x0F
};

/* The level of a link. Any other number means that the link is gone, 0 too. */
enum {
    ROPETHATCH_LEVEL_GONE = 0,
    ROPETHATCH_LEVEL_PLAIN = 1,
    ROPETHATCH_LEVEL_ENCRYPTED = 2,
    ROPETHATCH_LEVEL_AUTHENTICATED = 3 /* and encrypted */
};

/* What a record asks of a link, for reading and for writing. */
enum {
    ROPETHATCH_NEED_NEVER = 0, /* no tablet may; the application still can, by get and set */
    ROPETHATCH_NEED_ANY = 1,
    ROPETHATCH_NEED_ENCRYPTED = 2,
    ROPETHATCH_NEED_AUTHENTICATED = 3
};

/* The flags of a record. Neither: a shared value of fixed length. */
enum {
    ROPETHATCH_FLAG_VARIABLE = 1, /* the length changes with each write, up to the capacity; else it is the capacity */
    ROPETHATCH_FLAG_CLIENT = 2    /* each tablet has a value of its own, in its slot's table; else one in the store is shared by all */
};

/* ropethatch_request.op: the ATT opcode, and what the other fields are. What is not named is not looked at. `brings` are the bytes lent
   as `data`; UUIDs and handles in it stand low byte first. Any other number is taken as a confirmation: Core wants an error response with
   code 0x06 (Request Not Supported) for an unknown request opcode, and that is the business of the one who keeps the link. */
enum {
    ROPETHATCH_OP_EXCHANGE_MTU = 0x02,       /* other: MTU. Never answered here: the MTU is the business of the one who keeps the link */
    ROPETHATCH_OP_FIND_INFORMATION = 0x04,   /* handle: start, other: end */
    ROPETHATCH_OP_FIND_BY_TYPE_VALUE = 0x06, /* handle: start, other: end, uuid: the 16-bit type; brings the value */
    ROPETHATCH_OP_READ_BY_TYPE = 0x08,       /* handle: start, other: end; brings the UUID, 2 or 16 bytes */
    ROPETHATCH_OP_READ = 0x0A,               /* handle */
    ROPETHATCH_OP_READ_BLOB = 0x0C,          /* handle, other: offset */
    ROPETHATCH_OP_READ_MULTIPLE = 0x0E,      /* brings the handles, 2 bytes each. Not served: answered by an error, 0x0A, or 0x04 without a handle */
    ROPETHATCH_OP_READ_BY_GROUP_TYPE = 0x10, /* handle: start, other: end; brings the UUID, 2 or 16 bytes */
    ROPETHATCH_OP_WRITE = 0x12,              /* handle; brings the value */
    ROPETHATCH_OP_PREPARE_WRITE = 0x16,      /* handle, other: offset; brings the value's part */
    ROPETHATCH_OP_EXECUTE_WRITE = 0x18,      /* other: 1 writes what is prepared, anything else drops it */
    ROPETHATCH_OP_CONFIRMATION = 0x1E,       /* never answered, changes nothing */
    ROPETHATCH_OP_WRITE_COMMAND = 0x52       /* handle; brings the value. Never answered, not even by an error */
};

/* Who a tablet is. All zeros is nobody: the identity of an empty slot, refused as an argument. Tablets are told apart by all 7 bytes. */
typedef struct ropethatch_identity {
    uint8_t kind;    /* 0 public address, 1 random address */
    uint8_t addr[6]; /* low byte first: 01:02:03:04:05:06 is {6, 5, 4, 3, 2, 1} */
} ropethatch_identity;

/* One of the eight places for a tablet. ropethatch_new, connect and disconnect write them; read them, and save them if you like. */
typedef struct ropethatch_slot {
    ropethatch_identity id;
    uint8_t connected; /* 0 not connected, any other byte connected */
} ropethatch_slot;

/* A link's prepared write. Start each link with all zeros, and do so again when the link ends. */
typedef struct ropethatch_prepared {
    uint16_t handle; /* 0: nothing is prepared, and then len is 0 too */
    uint16_t offset; /* where in the value the prepared bytes go */
    uint16_t len;    /* how many of the 512 bytes beside it are prepared */
} ropethatch_prepared;

/* A request that has come in over a link, decoded. See ROPETHATCH_OP_ for the fields. */
typedef struct ropethatch_request {
    uint8_t op;
    uint16_t handle; /* the handle, or the start of a range */
    uint16_t other;  /* the end of a range, an offset, the flags or the MTU */
    uint16_t uuid;   /* the type, for FIND_BY_TYPE_VALUE */
} ropethatch_request;

/* What a call answers. Compare its fields; it has padding, so do not compare it whole by memcmp. */
typedef struct ropethatch_reply {
    uint8_t status; /* ROPETHATCH_STATUS_ */
    uint8_t code;   /* ROPETHATCH_REFUSAL_ or ROPETHATCH_ATT_, as the status says */
    size_t len;     /* bytes in the buffer, where the status is VALUE */
} ropethatch_reply;

/* A record of the list: an attribute. Numbers of two bytes stand low byte first.
     at  0  handle, 1 to 0x7FFF; each record's is above the one before
     at  2  capacity: the most bytes that its value can have, at most 512
     at  4  where in the store its value starts (shared values). A value takes `capacity` bytes there; the values lie in the order of
            the list, do not overlap and end within the store
     at  6  present length (shared values): at most the capacity, and equal to it if fixed. A write changes it, so the list is state:
            save it with the store
     at  8  need for reading (one byte), at 9 need for writing (one byte): ROPETHATCH_NEED_
     at 10  flags (one byte): ROPETHATCH_FLAG_
     at 11  length of the UUID (one byte): 2 or 16
     at 12  UUID, low byte first, 16 bytes of room; zeros behind a short one
     at 28  four zeros
   A client value has no start and no present length: leave both 0. */
typedef struct ropethatch_record {
    uint8_t bytes[ROPETHATCH_RECORD_SIZE];
} ropethatch_record;

/* The client values of the tablet in the slot of the same place. The calls alone write it. */
typedef struct ropethatch_table {
    uint8_t bytes[ROPETHATCH_TABLE_SIZE];
} ropethatch_table;

/* The sizes and alignments that the library was compiled for. */
#ifdef __cplusplus
#define ROPETHATCH_IS(type, size, alignment)                             \
    static_assert(sizeof(type) == (size), "the size of " #type);         \
    static_assert(alignof(type) == (alignment), "the alignment of " #type)
#else
#define ROPETHATCH_IS(type, size, alignment)                              \
    _Static_assert(sizeof(type) == (size), "the size of " #type);         \
    _Static_assert(_Alignof(type) == (alignment), "the alignment of " #type)
#endif
ROPETHATCH_IS(size_t, 8, 8);
ROPETHATCH_IS(ropethatch_identity, 7, 1);
ROPETHATCH_IS(ropethatch_slot, 8, 1);
ROPETHATCH_IS(ropethatch_prepared, 6, 2);
ROPETHATCH_IS(ropethatch_request, 8, 2);
ROPETHATCH_IS(ropethatch_reply, 16, 8);
ROPETHATCH_IS(ropethatch_record, 32, 1);
ROPETHATCH_IS(ropethatch_table, 640, 1);
#undef ROPETHATCH_IS

/* For a call that wants bytes where you have none: it is not NULL. The count beside it is 0, and its one byte is never looked at. */
static const uint8_t ROPETHATCH_NO_BYTES[1] = {0};

/* In every call on a hub: slots_count and tables_count are 8, list_count is the number of records, store_count the number of bytes in the
   store. Such a call takes the whole hub, also where it needs no byte of the store; what is behind a pointer to const is only read.
   All are refused 1 where what they are lent is not valid. The last call, saved_length, is on no hub. */

/* Opens a hub: writes eight empty slots and eight fresh tables for the list. What the slots and tables held before does not matter.
   The store is not touched: set the shared values there before or after.
   DONE; REFUSED 1 (the list breaks a rule that stands at ropethatch_record, or a count is wrong), 6. */
ropethatch_reply ropethatch_new(ropethatch_slot *slots, size_t slots_count, const ropethatch_record *list, size_t list_count,
                                const uint8_t *store, size_t store_count, ropethatch_table *tables, size_t tables_count);

/* A tablet has connected. It gets the first slot that is its own or empty; if there is none, the first whose tablet is not connected,
   and that tablet's values are lost. So an empty slot before its own wins, and then it starts with fresh values.
   DONE; REFUSED 1, 3, 7. */
ropethatch_reply ropethatch_connect(ropethatch_slot *slots, size_t slots_count, const ropethatch_record *list, size_t list_count,
                                    const uint8_t *store, size_t store_count, ropethatch_table *tables, size_t tables_count,
                                    ropethatch_identity who);

/* A tablet has left. bonded 0: it is forgotten, its slot emptied and its values cleared. Any other number: slot and values are kept
   for its return. A tablet without a slot changes nothing, and that is DONE too. Its prepared write is yours to make zero.
   DONE; REFUSED 1, 3. */
ropethatch_reply ropethatch_disconnect(ropethatch_slot *slots, size_t slots_count, const ropethatch_record *list, size_t list_count,
                                       const uint8_t *store, size_t store_count, ropethatch_table *tables, size_t tables_count,
                                       ropethatch_identity who, uint8_t bonded);

/* A request has come in from `who`, over a link of that level. prepared and bytes are the link's own, the same ones in every call.
   data are the bytes that the request brings (ROPETHATCH_NO_BYTES, 0 if none). The response is written to out; lend as many bytes as
   the link's MTU lets you send, 23 to 517, also for a request that has no answer.
   VALUE: send the first `len` bytes of out (a response, or an ATT error response: 0x01, the request's opcode, the handle, the code).
   NOTHING: send nothing. REFUSED 1 (also a prepared write of more than 512 bytes, or of some under handle 0), 2, 3. */
ropethatch_reply ropethatch_process(const ropethatch_slot *slots, size_t slots_count, ropethatch_record *list, size_t list_count,
                                    uint8_t *store, size_t store_count, ropethatch_table *tables, size_t tables_count,
                                    ropethatch_identity who, uint8_t level, ropethatch_prepared *prepared, uint8_t bytes[512],
                                    ropethatch_request request, const uint8_t *data, size_t data_count, uint8_t *out,
                                    size_t out_count);

/* The application reads a value: a shared one, or `who`'s own client value. No permission is asked. out may have any length; a longer
   value is cut to it, and this is not told, so lend the capacity to have it whole. An identity is needed for a shared value too.
   VALUE; ATT 0x0A (a client value, and who has no slot); REFUSED 1, 3, 8. */
ropethatch_reply ropethatch_get(const ropethatch_slot *slots, size_t slots_count, const ropethatch_record *list, size_t list_count,
                                const uint8_t *store, size_t store_count, const ropethatch_table *tables, size_t tables_count,
                                ropethatch_identity who, uint16_t handle, uint8_t *out, size_t out_count);

/* The application sets a value: a shared one, or `who`'s own client value, whole. No permission is asked. A variable value takes the length
   of the data. Where it was longer, zeros take the place of the rest in a client value's table; behind a shared value the store keeps the
   old bytes, which are not part of it. Requests that write do the same.
   DONE; ATT 0x0A (as for get), 0x0D (longer than the capacity of a variable value); REFUSED 1, 3, 8, 9. */
ropethatch_reply ropethatch_set(const ropethatch_slot *slots, size_t slots_count, ropethatch_record *list, size_t list_count,
                                uint8_t *store, size_t store_count, ropethatch_table *tables, size_t tables_count,
                                ropethatch_identity who, uint16_t handle, const uint8_t *data, size_t data_count);

/* May a link of that level read the handle? Or write it? It is a question of the record's need and of the level alone.
   DONE (it may); ATT 0x01 (no such handle, or the link is gone), 0x02 (never read), 0x03 (never written), 0x0F (not encrypted),
   0x05 (not authenticated); REFUSED 1, 3. */
ropethatch_reply ropethatch_can_read(const ropethatch_slot *slots, size_t slots_count, const ropethatch_record *list,
                                     size_t list_count, const uint8_t *store, size_t store_count, const ropethatch_table *tables,
                                     size_t tables_count, ropethatch_identity who, uint8_t level, uint16_t handle);
ropethatch_reply ropethatch_can_write(const ropethatch_slot *slots, size_t slots_count, const ropethatch_record *list,
                                      size_t list_count, const uint8_t *store, size_t store_count, const ropethatch_table *tables,
                                      size_t tables_count, ropethatch_identity who, uint8_t level, uint16_t handle);

/* Has the tablet asked for notifications, or for indications, by the client value at the handle (a Client Characteristic Configuration)?
   Yes where it has a slot and a client value of exactly 2 bytes there whose bit 0 (notify) or bit 1 (indicate) is set.
   YES (0!); NO, also for an unlisted handle; REFUSED 1, 3. */
ropethatch_reply ropethatch_should_notify(const ropethatch_slot *slots, size_t slots_count, const ropethatch_record *list,
                                          size_t list_count, const uint8_t *store, size_t store_count,
                                          const ropethatch_table *tables, size_t tables_count, ropethatch_identity who,
                                          uint16_t handle);
ropethatch_reply ropethatch_should_indicate(const ropethatch_slot *slots, size_t slots_count, const ropethatch_record *list,
                                            size_t list_count, const uint8_t *store, size_t store_count,
                                            const ropethatch_table *tables, size_t tables_count, ropethatch_identity who,
                                            uint16_t handle);

/* Copies the tablet's table, to be saved: all of it, or as much as ropethatch_saved_length says. In a hub that ropethatch_new opened and
   the calls alone have written to, nothing is left in it of values that were longer.
   VALUE, always of 640 bytes; NOTHING (the tablet has no slot, and out is as lent); REFUSED 1, 3. */
ropethatch_reply ropethatch_get_client_att_table(const ropethatch_slot *slots, size_t slots_count, const ropethatch_record *list,
                                                 size_t list_count, const uint8_t *store, size_t store_count,
                                                 const ropethatch_table *tables, size_t tables_count, ropethatch_identity who,
                                                 uint8_t out[640]);

/* Puts the values of a saved table into the tablet's own. It may have been saved under another list: handles that the list does not have
   are passed over, values that are too long are cut, and values that it lacks become zeros. saved may have any length.
   DONE, also where the tablet has no slot and nothing changes; REFUSED 1, 3, 4. */
ropethatch_reply ropethatch_set_client_att_table(const ropethatch_slot *slots, size_t slots_count, const ropethatch_record *list,
                                                 size_t list_count, const uint8_t *store, size_t store_count,
                                                 ropethatch_table *tables, size_t tables_count, ropethatch_identity who,
                                                 const uint8_t *saved, size_t saved_count);

/* How many of these bytes are a saved table: it stands at their start and ends with its values; what follows is not the table's and need
   not be saved. Nothing is changed. saved may have any length.
   VALUE, its `len` the number; REFUSED 4 (the bytes are no table). */
ropethatch_reply ropethatch_saved_length(const uint8_t *saved, size_t saved_count);

#ifdef __cplusplus
}
#endif
#endif
