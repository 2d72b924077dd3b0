/* Random calls, on a hub each of whose parts lies against memory that can't be touched. In the first half of the calls every range that is
   lent ends where such memory begins, in the second half every range begins where such memory ends; on its other side it has canaries. So a
   byte read or written just outside of what was lent stops the program, or is seen at once. After each call it is checked that the answer is
   one that ropethatch.h has for that call, that it is refused 1, 2 or 3 exactly where it must be, and that nothing was changed that must stay.

   It prints one line: how many calls answered what. The random numbers are the same in every run, so the line is too. A fault ends it: a
   message on stderr, and exit 1. The one argument, if any, is the number of calls. */
#define _GNU_SOURCE /* for MAP_ANONYMOUS */
#include "ropethatch.h"
#include <setjmp.h>
#include <signal.h>
#include <stdio.h>
#include <stdlib.h>
#include <string.h>
#include <sys/mman.h>
#include <sys/wait.h>
#include <unistd.h>

#define COUNT(array) (sizeof(array) / sizeof((array)[0]))

enum { RECORDS = 7, STORE_SIZE = 64, LARGEST = ROPETHATCH_SLOTS * ROPETHATCH_TABLE_SIZE };
enum { CALLS = 50000, SUBSCRIPTION = 3 /* a handle */, AS_LENT = 0xEE, CANARY = 0xC5 };

/* The room of a range, and the untouchable memory on either side of it. It is a multiple of every usual page size: an emulator can't protect
   less than a page of the machine that it runs on. */
enum { ROOM = 65536 };

/* How many canaries are looked at after each call. All of them are looked at in the end. */
enum { NEAR = 1024 };

/* The ranges that are lent. `out` and `data` come in many sizes, each a range of its own, since each must lie against the untouchable memory.
   `out` of get_client_att_table is the largest. */
static const uint16_t out_sizes[] = {0, 1, 22, 23, 24, 64, 100, 517, 518, ROPETHATCH_TABLE_SIZE};
static const uint16_t data_sizes[] = {0, 1, 2, 3, 4, 8, 9, 16, 18, 19, 40, 95, 300, 512, ROPETHATCH_TABLE_SIZE};
enum { OUT_23 = 3, OUT_517 = 7, DATA_2 = 2, DATA_16 = 7 }; /* places in these rows */
enum { SLOTS, LIST, STORE, TABLES, PREPARED, BYTES, OUT, DATA = OUT + COUNT(out_sizes), RANGES = DATA + COUNT(data_sizes) };
enum { OUT_LARGEST = DATA - 1, DATA_LARGEST = RANGES - 1 };

enum side { ENDS_AT_GUARD, BEGINS_AT_GUARD };

static struct range {
    const char *name;
    size_t size;
    uint8_t *room; /* ROOM bytes: the range and its canaries */
    uint8_t *at;
    uint8_t before[LARGEST]; /* what the range held when it was lent */
} ranges[RANGES];

/* The calls. Those from CONNECT to SAVED_LENGTH are made equally often, see choose_kind. */
enum kind {
    NEW,
    CONNECT,
    DISCONNECT,
    GET,
    SET,
    CAN_READ,
    CAN_WRITE,
    SHOULD_NOTIFY,
    SHOULD_INDICATE,
    GET_TABLE,
    SET_TABLE,
    SAVED_LENGTH,
    PROCESS,
    KINDS
};

/* What the header says of each call. Each field is a set: the bit 1 << n is there if n is in it. */
#define BIT(n) (1u << (n))
#define DONE BIT(ROPETHATCH_STATUS_DONE)
#define NOTHING BIT(ROPETHATCH_STATUS_NOTHING)
#define VALUE BIT(ROPETHATCH_STATUS_VALUE)
#define ATT BIT(ROPETHATCH_STATUS_ATT)
#define COMMON (BIT(ROPETHATCH_REFUSAL_STATE) | BIT(ROPETHATCH_REFUSAL_IDENTITY))
#define ATT_LEVEL                                                                                                                          \
    (BIT(ROPETHATCH_ATT_INVALID_HANDLE) | BIT(ROPETHATCH_ATT_INSUFFICIENT_AUTHENTICATION) | BIT(ROPETHATCH_ATT_INSUFFICIENT_ENCRYPTION))

static const struct rule {
    const char *name;
    unsigned statuses; /* beside REFUSED, which is in all of them */
    unsigned refusals;
    unsigned att;
    unsigned changes; /* the ranges that it may change, beside `out` */
} rules[KINDS] = {
    [NEW] = {"new", DONE, BIT(ROPETHATCH_REFUSAL_STATE), 0, BIT(SLOTS) | BIT(TABLES)},
    [CONNECT] = {"connect", DONE, COMMON | BIT(ROPETHATCH_REFUSAL_SLOT), 0, BIT(SLOTS) | BIT(TABLES)},
    [DISCONNECT] = {"disconnect", DONE, COMMON, 0, BIT(SLOTS) | BIT(TABLES)},
    [GET] = {"get", VALUE | ATT, COMMON | BIT(ROPETHATCH_REFUSAL_HANDLE), BIT(ROPETHATCH_ATT_NOT_FOUND), 0},
    [SET] = {"set", DONE | ATT, COMMON | BIT(ROPETHATCH_REFUSAL_HANDLE) | BIT(ROPETHATCH_REFUSAL_LENGTH),
             BIT(ROPETHATCH_ATT_NOT_FOUND) | BIT(ROPETHATCH_ATT_INVALID_LENGTH), BIT(LIST) | BIT(STORE) | BIT(TABLES)},
    [CAN_READ] = {"can_read", DONE | ATT, COMMON, ATT_LEVEL | BIT(ROPETHATCH_ATT_READ_NOT_PERMITTED), 0},
    [CAN_WRITE] = {"can_write", DONE | ATT, COMMON, ATT_LEVEL | BIT(ROPETHATCH_ATT_WRITE_NOT_PERMITTED), 0},
    [SHOULD_NOTIFY] = {"should_notify", DONE | NOTHING, COMMON, 0, 0},
    [SHOULD_INDICATE] = {"should_indicate", DONE | NOTHING, COMMON, 0, 0},
    [GET_TABLE] = {"get_client_att_table", NOTHING | VALUE, COMMON, 0, 0},
    [SET_TABLE] = {"set_client_att_table", DONE, COMMON | BIT(ROPETHATCH_REFUSAL_TABLE), 0, BIT(TABLES)},
    [SAVED_LENGTH] = {"saved_length", VALUE, BIT(ROPETHATCH_REFUSAL_TABLE), 0, 0},
    [PROCESS] = {"process", NOTHING | VALUE, COMMON | BIT(ROPETHATCH_REFUSAL_BUFFER), 0,
                 BIT(LIST) | BIT(STORE) | BIT(TABLES) | BIT(PREPARED) | BIT(BYTES)},
};

/* The call that is being made, all its arguments. A call takes those that its prototype has. */
static struct call {
    unsigned long number; /* from 1; 0 before the first */
    enum kind kind;
    size_t slots_count, tables_count;
    ropethatch_identity who;
    uint8_t level, bonded;
    uint16_t handle;
    ropethatch_request request;
    struct range *out, *data;
} call;

static uint8_t saved[ROPETHATCH_TABLE_SIZE];   /* the table that get_client_att_table gave last */
static unsigned long answered[5], refused[10]; /* how many calls had this status, this refusal */
static uint8_t canaries[ROOM];                 /* what canaries must be equal to */

/* ---- Faults ---- */

static void fail(const char *why)
{
    fprintf(stderr, "guard: call %lu, ropethatch_%s: %s\n", call.number, rules[call.kind].name, why);
    exit(1);
}

static void fail_at(const struct range *range, const char *why)
{
    fprintf(stderr, "guard: call %lu, ropethatch_%s: %s (%zu bytes): %s\n", call.number, rules[call.kind].name, range->name, range->size,
            why);
    exit(1);
}

static uintptr_t touched_byte;
static sigjmp_buf out_of_the_call;

/* Untouchable memory was touched. It is told outside of the signal handler: in one, some emulators leave the stack unfit for printing. */
static void touched(int number, siginfo_t *info, void *context)
{
    (void)number;
    (void)context;
    touched_byte = (uintptr_t)info->si_addr;
    siglongjmp(out_of_the_call, 1);
}

static void fail_touched(void)
{
    for (size_t i = 0; i < RANGES; i++) {
        uintptr_t room = (uintptr_t)ranges[i].room;
        if (touched_byte >= room - ROOM && touched_byte < room + 2 * ROOM)
            fail_at(&ranges[i], "a byte outside of it was touched");
    }
    fail("a byte far from all that was lent was touched");
}

static void watch(void)
{
    struct sigaction action;
    memset(&action, 0, sizeof action);
    action.sa_sigaction = touched;
    action.sa_flags = SA_SIGINFO;
    if (sigaction(SIGSEGV, &action, NULL) != 0) {
        perror("guard: sigaction");
        exit(1);
    }
}

/* ---- The ranges ---- */

/* Gives a range its room, with at least ROOM untouchable bytes on either side. */
static void map(struct range *range, const char *name, size_t size)
{
    uint8_t *all = mmap(NULL, 4 * ROOM, PROT_NONE, MAP_PRIVATE | MAP_ANONYMOUS, -1, 0);
    if (all == MAP_FAILED) {
        perror("guard: mmap");
        exit(1);
    }
    range->name = name;
    range->size = size;
    range->room = all + 2 * ROOM - (uintptr_t)all % ROOM;
    if (mprotect(range->room, ROOM, PROT_READ | PROT_WRITE) != 0) {
        perror("guard: mprotect");
        exit(1);
    }
}

static void map_all(void)
{
    map(&ranges[SLOTS], "slots", ROPETHATCH_SLOTS * sizeof(ropethatch_slot));
    map(&ranges[LIST], "list", RECORDS * sizeof(ropethatch_record));
    map(&ranges[STORE], "store", STORE_SIZE);
    map(&ranges[TABLES], "tables", ROPETHATCH_SLOTS * sizeof(ropethatch_table));
    map(&ranges[PREPARED], "prepared", sizeof(ropethatch_prepared));
    map(&ranges[BYTES], "bytes", ROPETHATCH_PREPARED_SIZE);
    for (size_t i = 0; i < COUNT(out_sizes); i++)
        map(&ranges[OUT + i], "out", out_sizes[i]);
    for (size_t i = 0; i < COUNT(data_sizes); i++)
        map(&ranges[DATA + i], "data", data_sizes[i]);
}

/* Puts every range to one side of its room, and canaries into the rest. */
static void place_all(enum side side)
{
    for (size_t i = 0; i < RANGES; i++) {
        struct range *range = &ranges[i];
        range->at = side == ENDS_AT_GUARD ? range->room + ROOM - range->size : range->room;
        memset(range->room, CANARY, ROOM);
        memset(range->at, AS_LENT, range->size);
    }
}

static void stopped(int number)
{
    (void)number;
    _exit(1);
}

/* If the memory could be touched after all, the rest would test nothing. So a child tries it first, and must be stopped. */
static void try_guard(enum side side)
{
    const struct range *range = &ranges[BYTES];
    const volatile uint8_t *outside = side == ENDS_AT_GUARD ? range->at + range->size : range->at - 1;
    int status = 0;
    pid_t child = fork();
    if (child == 0) {
        signal(SIGSEGV, stopped);
        _exit(*outside); /* 0, if it can be read: nothing was ever written there */
    }
    if (child < 0 || waitpid(child, &status, 0) != child) {
        perror("guard: the guard can't be tried");
        exit(1);
    }
    if (WIFEXITED(status) && WEXITSTATUS(status) == 0) {
        fprintf(stderr, "guard: what must be untouchable can be touched on this machine, so nothing can be tested\n");
        exit(1);
    }
}

/* ---- The hub ---- */

/* Where seven slots or tables are lent, they are the last seven, so that they too end where the untouchable memory begins. */
static ropethatch_slot *slots(void)
{
    return (ropethatch_slot *)(void *)ranges[SLOTS].at + (ROPETHATCH_SLOTS - call.slots_count);
}

static ropethatch_table *tables(void)
{
    return (ropethatch_table *)(void *)ranges[TABLES].at + (ROPETHATCH_SLOTS - call.tables_count);
}

static ropethatch_record *list(void)
{
    return (ropethatch_record *)(void *)ranges[LIST].at;
}

static ropethatch_prepared *prepared(void)
{
    return (ropethatch_prepared *)(void *)ranges[PREPARED].at;
}

/* How the argument list of each call begins. */
#define HUB slots(), call.slots_count, list(), RECORDS, ranges[STORE].at, STORE_SIZE, tables(), call.tables_count

static void put_u16(uint8_t *at, unsigned number)
{
    at[0] = (uint8_t)(number & 0xFF);
    at[1] = (uint8_t)(number >> 8);
}

/* The 32 bytes of a list record, for a 16-bit UUID. */
static ropethatch_record record(uint16_t handle, uint16_t uuid, uint8_t flags, uint16_t capacity, uint16_t start, uint16_t length,
                                uint8_t read_need, uint8_t write_need)
{
    ropethatch_record r = {{0}};
    put_u16(r.bytes + 0, handle);
    put_u16(r.bytes + 2, capacity);
    put_u16(r.bytes + 4, start);
    put_u16(r.bytes + 6, length);
    r.bytes[8] = read_need;
    r.bytes[9] = write_need;
    r.bytes[10] = flags;
    r.bytes[11] = 2;
    put_u16(r.bytes + 12, uuid);
    return r;
}

static const uint8_t long_uuid[16] = {1, 2, 3, 4, 5, 6, 7, 8, 9, 10, 11, 12, 13, 14, 15, 16};

/* Shared and client values, fixed and variable ones, all the needs, and both kinds of UUID. The last value ends where the store ends. */
static void lay_out(void)
{
    const uint8_t any = ROPETHATCH_NEED_ANY, never = ROPETHATCH_NEED_NEVER;
    const uint8_t encrypted = ROPETHATCH_NEED_ENCRYPTED, authenticated = ROPETHATCH_NEED_AUTHENTICATED;
    const uint8_t client = ROPETHATCH_FLAG_CLIENT, variable = ROPETHATCH_FLAG_VARIABLE;
    ropethatch_record *l = list();
    l[0] = record(1, 0x2800, 0, 2, 0, 2, any, never);
    l[1] = record(2, 0x2A00, variable, 16, 2, 6, any, any);
    l[2] = record(SUBSCRIPTION, 0x2902, client, 2, 0, 0, any, any);
    l[3] = record(5, 0x2A3D, client | variable, 8, 0, 0, any, any);
    l[4] = record(7, 0x2A3D, variable, 40, 20, 10, encrypted, authenticated);
    l[5] = record(9, 0x2A3D, client | variable, 300, 0, 0, any, any);
    l[6] = record(ROPETHATCH_HANDLE_MAX, 0, 0, 4, 60, 4, never, encrypted);
    l[6].bytes[11] = sizeof long_uuid;
    memcpy(l[6].bytes + 12, long_uuid, sizeof long_uuid);
    memset(prepared(), 0, sizeof *prepared());
    memset(saved, 0, sizeof saved);
}

/* ---- The random choice of a call ---- */

/* A number below the bound. At most one is asked for in an expression whose order C leaves open: the run must not depend on the compiler. */
static unsigned below(size_t bound)
{
    static uint64_t state = 88172645463325252u;
    state ^= state << 13;
    state ^= state >> 7;
    state ^= state << 17;
    return (unsigned)((state >> 20) % bound);
}

static int one_in(size_t count)
{
    return below(count) == 0;
}

/* A listed handle, or one between them, or one that is no handle. Often the subscription: should_notify seldom says yes to another. */
static uint16_t choose_handle(void)
{
    static const uint16_t handles[] = {0, 1, 2, 3, 4, 5, 7, 9, 10, ROPETHATCH_HANDLE_MAX, 0x8005, 0xFFFF};
    return one_in(4) ? SUBSCRIPTION : handles[below(COUNT(handles))];
}

static enum kind choose_kind(void)
{
    unsigned kind;
    if (one_in(1000))
        return NEW; /* rarely, since it empties the slots */
    kind = CONNECT + below(17);
    return kind < PROCESS ? (enum kind)kind : PROCESS;
}

/* Now and then a count that is refused. */
static void choose_counts(void)
{
    call.slots_count = one_in(100) ? ROPETHATCH_SLOTS - 1 : ROPETHATCH_SLOTS;
    call.tables_count = one_in(100) ? ROPETHATCH_SLOTS - 1 : ROPETHATCH_SLOTS;
}

/* Nobody, or one of 15 tablets: more than there are slots, but so few that it often has one. Now and then it is of an unknown kind. */
static void choose_who(void)
{
    memset(&call.who, 0, sizeof call.who);
    call.who.kind = (uint8_t)(one_in(40) ? 2 : below(2));
    call.who.addr[0] = (uint8_t)below(4);
    call.who.addr[5] = one_in(2) ? 0xC0 : 0;
}

static void choose_out(void)
{
    size_t size = below(COUNT(out_sizes));
    if (call.kind == PROCESS && !one_in(8))
        size = OUT_23 + below(OUT_517 - OUT_23 + 1); /* one that is not refused */
    call.out = &ranges[OUT + size];
    if (call.kind == GET_TABLE)
        call.out = &ranges[OUT_LARGEST];
}

/* Often few bytes, since most values are short; and many small numbers among them, since these are the ones that mean something. */
static void choose_data(void)
{
    call.data = &ranges[DATA + below(one_in(2) ? DATA_16 : COUNT(data_sizes))];
    for (size_t i = 0; i < call.data->size; i++)
        call.data->at[i] = (uint8_t)(one_in(3) ? below(6) : below(256));
}

/* Lends the bytes as data, as many of them as the data have room for. */
static void lend(const void *bytes, size_t count)
{
    memcpy(call.data->at, bytes, count < call.data->size ? count : call.data->size);
}

/* Mostly a table that was saved, since random bytes are none; sometimes one byte of it is another. */
static void choose_saved(void)
{
    if (one_in(3))
        return;
    if (!one_in(4))
        call.data = &ranges[DATA_LARGEST];
    lend(saved, sizeof saved);
    if (one_in(4) && call.data->size > 0) {
        uint8_t *byte = call.data->at + below(call.data->size);
        *byte = (uint8_t)below(256);
    }
}

/* Often the whole range of handles and a type that is listed, since a random one would find nothing. */
static void choose_search(void)
{
    if (!one_in(4)) {
        call.request.handle = 1;
        call.request.other = 0xFFFF;
    }
    if (call.request.op == ROPETHATCH_OP_FIND_BY_TYPE_VALUE) {
        if (one_in(2))
            call.data = &ranges[DATA + DATA_2];
        lend(ranges[STORE].at, STORE_SIZE); /* two bytes are the value of handle 1 */
    } else if (one_in(4)) {
        call.data = &ranges[DATA + DATA_16];
        lend(long_uuid, sizeof long_uuid);
    } else if (!one_in(3)) {
        call.data = &ranges[DATA + DATA_2];
        put_u16(call.data->at, 0x2A3D);
    }
}

/* Often what goes on where the prepared bytes end, so that more than one part is prepared. */
static void choose_part(void)
{
    if (one_in(2))
        return;
    if (prepared()->handle != 0)
        call.request.handle = prepared()->handle;
    call.request.other = (uint16_t)(prepared()->offset + prepared()->len);
}

static void choose_request(void)
{
    static const uint16_t types[] = {0x2800, 0x2A00, 0x2A3D};
    static const uint8_t ops[] = {
        ROPETHATCH_OP_EXCHANGE_MTU, ROPETHATCH_OP_FIND_INFORMATION, ROPETHATCH_OP_FIND_BY_TYPE_VALUE, ROPETHATCH_OP_READ_BY_TYPE,
        ROPETHATCH_OP_READ,         ROPETHATCH_OP_READ_BLOB,        ROPETHATCH_OP_READ_MULTIPLE,      ROPETHATCH_OP_READ_BY_GROUP_TYPE,
        ROPETHATCH_OP_WRITE,        ROPETHATCH_OP_PREPARE_WRITE,    ROPETHATCH_OP_EXECUTE_WRITE,      ROPETHATCH_OP_WRITE_COMMAND,
        ROPETHATCH_OP_CONFIRMATION, 0x77 /* none */
    };
    call.request.op = ops[below(COUNT(ops))];
    call.request.handle = call.handle;
    call.request.other = one_in(2) ? choose_handle() : (uint16_t)below(20);
    call.request.uuid = types[below(COUNT(types))];
    switch (call.request.op) {
    case ROPETHATCH_OP_FIND_INFORMATION:
    case ROPETHATCH_OP_FIND_BY_TYPE_VALUE:
    case ROPETHATCH_OP_READ_BY_TYPE:
    case ROPETHATCH_OP_READ_BY_GROUP_TYPE:
        choose_search();
        break;
    case ROPETHATCH_OP_PREPARE_WRITE:
        choose_part();
        break;
    case ROPETHATCH_OP_EXECUTE_WRITE:
        call.request.other = (uint16_t)below(3);
        break;
    }
}

static void choose_call(void)
{
    call.kind = choose_kind();
    choose_counts();
    choose_who();
    call.level = (uint8_t)(one_in(8) ? below(256) : 1 + below(3));
    call.bonded = (uint8_t)(one_in(3) ? 0 : 1 + below(255));
    call.handle = choose_handle();
    choose_out();
    choose_data();
    if (call.kind == SET_TABLE || call.kind == SAVED_LENGTH)
        choose_saved();
    if (call.kind == PROCESS)
        choose_request();
}

/* ---- The call ---- */

/* The calls that only ask. */
static ropethatch_reply ask(void)
{
    switch (call.kind) {
    case GET:
        return ropethatch_get(HUB, call.who, call.handle, call.out->at, call.out->size);
    case CAN_READ:
        return ropethatch_can_read(HUB, call.who, call.level, call.handle);
    case CAN_WRITE:
        return ropethatch_can_write(HUB, call.who, call.level, call.handle);
    case SHOULD_NOTIFY:
        return ropethatch_should_notify(HUB, call.who, call.handle);
    case SHOULD_INDICATE:
        return ropethatch_should_indicate(HUB, call.who, call.handle);
    case SAVED_LENGTH:
        return ropethatch_saved_length(call.data->at, call.data->size);
    default:
        return ropethatch_get_client_att_table(HUB, call.who, call.out->at);
    }
}

static ropethatch_reply make_call(void)
{
    switch (call.kind) {
    case NEW:
        return ropethatch_new(HUB);
    case CONNECT:
        return ropethatch_connect(HUB, call.who);
    case DISCONNECT:
        return ropethatch_disconnect(HUB, call.who, call.bonded);
    case SET:
        return ropethatch_set(HUB, call.who, call.handle, call.data->at, call.data->size);
    case SET_TABLE:
        return ropethatch_set_client_att_table(HUB, call.who, call.data->at, call.data->size);
    case PROCESS:
        return ropethatch_process(HUB, call.who, call.level, prepared(), ranges[BYTES].at, call.request, call.data->at, call.data->size,
                                  call.out->at, call.out->size);
    default:
        return ask();
    }
}

/* ---- The checks ---- */

static int has(unsigned set, unsigned number)
{
    return number < 32 && (set & BIT(number)) != 0;
}

static int is_nobody(ropethatch_identity who)
{
    static const ropethatch_identity nobody;
    return memcmp(&who, &nobody, sizeof who) == 0;
}

/* Which of the refusals 1, 2 and 3 must come, or 0. They follow from the arguments alone: the calls have made the state, so it is valid. */
static unsigned due_refusal(void)
{
    if (call.kind == SAVED_LENGTH)
        return 0; /* it is on no hub */
    if (call.slots_count != ROPETHATCH_SLOTS || call.tables_count != ROPETHATCH_SLOTS)
        return ROPETHATCH_REFUSAL_STATE;
    if (call.kind == PROCESS) {
        if (call.out->size < ROPETHATCH_RESPONSE_MIN || call.out->size > ROPETHATCH_RESPONSE_MAX)
            return ROPETHATCH_REFUSAL_BUFFER;
        if (call.request.op == ROPETHATCH_OP_PREPARE_WRITE && call.data->size > call.out->size - 5)
            return ROPETHATCH_REFUSAL_BUFFER;
    }
    if (call.kind != NEW && (call.who.kind > 1 || is_nobody(call.who)))
        return ROPETHATCH_REFUSAL_IDENTITY;
    return 0;
}

/* The range at whose start are as many bytes as a value has. */
static const struct range *counted(void)
{
    return call.kind == SAVED_LENGTH ? call.data : call.out;
}

/* A table has a header of 4 bytes, and what stands before its end is the same table. */
static void check_saved(ropethatch_reply reply)
{
    ropethatch_reply again;
    if (reply.len < 4)
        fail("a table of less than its header");
    again = ropethatch_saved_length(call.data->at, reply.len);
    if (again.status != ROPETHATCH_STATUS_VALUE || again.len != reply.len)
        fail("the table alone is another");
}

/* The answer is one that the header has for this call, in every field. */
static void check_reply(ropethatch_reply reply)
{
    const struct rule *rule = &rules[call.kind];
    unsigned due = due_refusal();
    unsigned told = 0;
    if (!has(rule->statuses | BIT(ROPETHATCH_STATUS_REFUSED), reply.status))
        fail("a status that it does not have");
    if (reply.status == ROPETHATCH_STATUS_REFUSED) {
        if (!has(rule->refusals, reply.code))
            fail("a refusal that it does not have");
        told = reply.code;
    } else if (reply.status == ROPETHATCH_STATUS_ATT) {
        if (!has(rule->att, reply.code))
            fail("an ATT code that it does not have");
    } else if (reply.code != 0) {
        fail("a code, but neither refused nor an ATT error");
    }
    if (due != 0 && told != due)
        fail("not refused, or not as it must be");
    if (due == 0 && told >= ROPETHATCH_REFUSAL_STATE && told <= ROPETHATCH_REFUSAL_IDENTITY)
        fail("refused without a reason");
    if (reply.status != ROPETHATCH_STATUS_VALUE && reply.len != 0)
        fail("a length without a value");
    if (reply.len > counted()->size)
        fail_at(counted(), "a length above its own");
    if (call.kind == GET_TABLE && reply.status == ROPETHATCH_STATUS_VALUE && reply.len != ROPETHATCH_TABLE_SIZE)
        fail("a table of another size");
    if (call.kind == SAVED_LENGTH && reply.status == ROPETHATCH_STATUS_VALUE)
        check_saved(reply);
}

/* Every byte is as it was lent, but for what the call may change where it is not refused, and the value in `out`. */
static void check_ranges(ropethatch_reply reply)
{
    unsigned changes = reply.status == ROPETHATCH_STATUS_REFUSED ? 0 : rules[call.kind].changes;
    for (unsigned i = 0; i < RANGES; i++) {
        const struct range *range = &ranges[i];
        size_t from = range == call.out && call.kind != SAVED_LENGTH ? reply.len : 0;
        if (!has(changes, i) && memcmp(range->at + from, range->before + from, range->size - from) != 0)
            fail_at(range, "a byte of it was changed that must stay");
    }
}

/* The canaries of every range are whole: those at most `reach` bytes away from it, on either side. */
static void check_canaries(size_t reach)
{
    for (size_t i = 0; i < RANGES; i++) {
        const struct range *range = &ranges[i];
        size_t before = (size_t)(range->at - range->room);
        size_t after = ROOM - before - range->size;
        before = before < reach ? before : reach;
        after = after < reach ? after : reach;
        if (memcmp(range->at - before, canaries, before) != 0)
            fail_at(range, "a byte before it was changed");
        if (memcmp(range->at + range->size, canaries, after) != 0)
            fail_at(range, "a byte after it was changed");
    }
}

static ropethatch_reply make_checked_call(void)
{
    ropethatch_reply reply;
    memset(call.out->at, AS_LENT, call.out->size);
    for (size_t i = 0; i < RANGES; i++)
        memcpy(ranges[i].before, ranges[i].at, ranges[i].size);
    reply = make_call();
    check_reply(reply);
    check_ranges(reply);
    check_canaries(NEAR);
    return reply;
}

/* ---- The run ---- */

/* Opens a hub whose slots and tables held something else before. */
static void open_hub(void)
{
    call.kind = NEW;
    call.slots_count = ROPETHATCH_SLOTS;
    call.tables_count = ROPETHATCH_SLOTS;
    call.out = &ranges[OUT_LARGEST];
    lay_out();
    if (make_checked_call().status != ROPETHATCH_STATUS_DONE)
        fail("the hub can't be opened");
}

static void run(unsigned long calls, enum side side)
{
    place_all(side);
    try_guard(side);
    open_hub();
    for (unsigned long i = 0; i < calls; i++) {
        ropethatch_reply reply;
        call.number++;
        choose_call();
        reply = make_checked_call();
        answered[reply.status]++;
        if (reply.status == ROPETHATCH_STATUS_REFUSED)
            refused[reply.code]++;
        if (call.kind == GET_TABLE && reply.status == ROPETHATCH_STATUS_VALUE)
            memcpy(saved, call.out->at, sizeof saved);
    }
    check_canaries(ROOM);
}

static void run_both(unsigned long calls)
{
    if (sigsetjmp(out_of_the_call, 0) != 0)
        fail_touched();
    watch();
    run(calls / 2, ENDS_AT_GUARD);
    run(calls - calls / 2, BEGINS_AT_GUARD);
}

static void print_tally(void)
{
    const char *separator = "";
    printf("%lu calls: %lu done or yes, %lu nothing or no, %lu a value, %lu an ATT error, %lu refused (", call.number,
           answered[ROPETHATCH_STATUS_DONE], answered[ROPETHATCH_STATUS_NOTHING], answered[ROPETHATCH_STATUS_VALUE],
           answered[ROPETHATCH_STATUS_ATT], answered[ROPETHATCH_STATUS_REFUSED]);
    for (size_t i = 1; i < COUNT(refused); i++) {
        if (refused[i] == 0)
            continue;
        printf("%s%zu: %lu", separator, i, refused[i]);
        separator = ", ";
    }
    printf(")\n");
}

int main(int count, char **arguments)
{
    unsigned long calls = CALLS;
    if (count > 1) {
        char *end;
        calls = strtoul(arguments[1], &end, 10);
        if (count > 2 || calls == 0 || *end != '\0') {
            fprintf(stderr, "guard: the argument is the number of calls\n");
            return 1;
        }
    }
    memset(canaries, CANARY, sizeof canaries);
    map_all();
    run_both(calls);
    print_tally();
    return 0;
}
