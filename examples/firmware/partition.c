/*
 * A partition at EL1, which calls by HVC. It is compiled three times, with SELF as its identifier: 0x8001
 * goes through the scenario, and asks the other two, which serve it, by direct messages.
 */
#include "ffaspm.h"
#include "map.h"

/* PROBE_LOAD and PROBE_STORE of map.h are the second and the fourth instruction. The last page of the
 * code has a function of its own, which 0x8001 lends. */
__asm__(".section .first, \"ax\"\n"
        "b run\n"
        "ldr w0, [x1]\n hvc #1\n"
        "str w0, [x1]\n hvc #1\n"
        ".section .last, \"ax\"\n"
        "mov x0, #0x8888\n ret\n"
        ".text\n");

/* ---- calls, which must leave the SIMD registers as they are */

struct words {
    uint64_t x[8];
};

static void say(const char *what);

static struct words call(uint64_t w0, uint64_t w1, uint64_t w2, uint64_t w3, uint64_t w4, uint64_t w5)
{
    register uint64_t x0 __asm__("x0") = w0;
    register uint64_t x1 __asm__("x1") = w1;
    register uint64_t x2 __asm__("x2") = w2;
    register uint64_t x3 __asm__("x3") = w3;
    register uint64_t x4 __asm__("x4") = w4;
    register uint64_t x5 __asm__("x5") = w5;
    register uint64_t x6 __asm__("x6") = 0;
    register uint64_t x7 __asm__("x7") = 0;
    uint64_t pattern = w0 ^ SELF * 0x0123456789abul, low, high;
    __asm__ volatile("dup v0.2d, %10\n dup v31.2d, %10\n hvc #0\n umov %8, v0.d[1]\n umov %9, v31.d[0]"
                     : "+r"(x0), "+r"(x1), "+r"(x2), "+r"(x3), "+r"(x4), "+r"(x5), "+r"(x6), "+r"(x7),
                       "=&r"(low), "=&r"(high)
                     : "r"(pattern)
                     : "memory", "v0", "v31");
    struct words reply = {{x0, x1, x2, x3, x4, x5, x6, x7}};
    if (low != pattern || high != pattern)
        say("SIMD REGISTERS ARE LOST");
    return reply;
}

/* ---- text: lines of 48 characters at most (FF-A 1.2, "FFA_CONSOLE_LOG") */

struct line {
    uint64_t words[6];
    size_t length;
};

static void put_text(struct line *line, const char *what)
{
    while (*what && line->length < sizeof line->words)
        ((char *)line->words)[line->length++] = *what++;
}

static void put_number(struct line *line, uint64_t number, uint64_t base)
{
    char digits[24];
    char *first = &digits[23];
    *first = 0;
    do
        *--first = "0123456789abcdef"[number % base];
    while (number /= base);
    put_text(line, first);
}

static void print(const struct line *line)
{
    register uint64_t x0 __asm__("x0") = FFA_CONSOLE_LOG_64;
    register uint64_t x1 __asm__("x1") = line->length;
    register uint64_t x2 __asm__("x2") = line->words[0];
    register uint64_t x3 __asm__("x3") = line->words[1];
    register uint64_t x4 __asm__("x4") = line->words[2];
    register uint64_t x5 __asm__("x5") = line->words[3];
    register uint64_t x6 __asm__("x6") = line->words[4];
    register uint64_t x7 __asm__("x7") = line->words[5];
    __asm__ volatile("hvc #0"
                     :
                     : "r"(x0), "r"(x1), "r"(x2), "r"(x3), "r"(x4), "r"(x5), "r"(x6), "r"(x7)
                     : "memory");
}

static void say(const char *what)
{
    struct line line = {{0}, 0};
    put_text(&line, what);
    print(&line);
}

static void tell_in(uint64_t base, const char *what, uint64_t number)
{
    struct line line = {{0}, 0};
    put_text(&line, what);
    put_text(&line, " ");
    put_number(&line, number, base);
    print(&line);
}

static void tell(const char *what, uint64_t number) { tell_in(16, what, number); }

/* ---- memory. EL2 goes on behind an access that is not allowed, and x0 stays FAULTED. */

#define FAULTED 0xfau

static uint64_t load(uint64_t address)
{
    register uint64_t x0 __asm__("x0") = FAULTED;
    register uint64_t x1 __asm__("x1") = address;
    __asm__ volatile("ldr x0, [x1]" : "+r"(x0) : "r"(x1) : "memory");
    return x0;
}

static uint64_t run_at(uint64_t address)
{
    register uint64_t x0 __asm__("x0") = FAULTED;
    register uint64_t x1 __asm__("x1") = address;
    __asm__ volatile("blr x1" : "+r"(x0) : "r"(x1) : "x30", "memory");
    return x0;
}

static void store(uint64_t address, uint64_t number) { *(volatile uint64_t *)address = number; }

static void tell_load(const char *what, uint64_t number)
{
    struct line line = {{0}, 0};
    put_text(&line, what);
    put_text(&line, " ");
    if (number == FAULTED)
        put_text(&line, "fault");
    else
        put_number(&line, number, 16);
    print(&line);
}

/* ---- descriptors of FF-A 1.1 in TX ("Memory transaction descriptor") */

static volatile uint8_t *const tx = (volatile uint8_t *)TX_OF(SELF);

static void put(size_t at, size_t bytes, uint64_t number)
{
    for (size_t i = 0; i < bytes; i++)
        tx[at + i] = (uint8_t)(number >> 8 * i);
}

static uint64_t get(uint64_t buffer, size_t at, size_t bytes)
{
    uint64_t number = 0;
    for (size_t i = 0; i < bytes; i++)
        number |= (uint64_t)((volatile uint8_t *)buffer)[at + i] << 8 * i;
    return number;
}

static void put_header(uint16_t sender, uint32_t attributes, uint32_t flags, uint64_t handle,
                       uint32_t receivers)
{
    for (size_t at = 0; at < 128; at += 8)
        put(at, 8, 0);
    put(0, 2, sender);
    put(2, 2, attributes);
    put(4, 4, flags);
    put(8, 8, handle);
    put(24, 4, 16);
    put(28, 4, receivers);
    put(32, 4, 48);
}

static void put_receiver(size_t at, uint16_t receiver, uint32_t permissions, uint32_t composite)
{
    put(at, 2, receiver);
    put(at + 2, 1, permissions);
    put(at + 4, 4, composite);
}

/* One page, for one receiver, or two where the second is not 0. Code is sent read-only. */
static uint32_t put_send(uint32_t function, uint32_t flags, uint64_t page, uint16_t first, uint16_t second)
{
    uint32_t composite = second ? 80 : 64;
    uint32_t permissions = function == FFA_MEM_DONATE ? 0 : page < TX_OF(SELF) ? 1 : 2;
    put_header(SELF, function == FFA_MEM_SHARE ? 0x2f : 0, flags, 0, second ? 2 : 1);
    put_receiver(48, first, permissions, composite);
    if (second)
        put_receiver(64, second, permissions, composite);
    put(composite, 4, 1);
    put(composite + 4, 4, 1);
    put(composite + 16, 8, page);
    put(composite + 24, 4, 1);
    return composite + 32;
}

/* Flag 10 says that other receivers are not named. */
static uint32_t put_retrieve(uint64_t handle, uint32_t permissions)
{
    put_header(0x8001, 0, 1u << 10, handle, 1);
    put_receiver(48, SELF, permissions, 0);
    return 64;
}

static void put_relinquish(uint64_t handle)
{
    put_header(0, 0, 0, 0, 0);
    put(0, 8, handle);
    put(12, 4, 1);
    put(16, 2, SELF);
}

/* ---- FF-A calls on memory */

static bool is_done(const char *what, struct words reply)
{
    if ((uint32_t)reply.x[0] != FFA_ERROR)
        return true;
    tell(what, (uint32_t)reply.x[2]);
    return false;
}

static uint64_t send(uint32_t function, uint32_t flags, uint64_t page, uint16_t first, uint16_t second)
{
    uint32_t length = put_send(function, flags, page, first, second);
    struct words reply = call(function, length, length, 0, 0, 0);
    if (!is_done("send is refused:", reply))
        return 0;
    uint64_t handle = reply.x[3] << 32 | reply.x[2];
    tell("handle", handle);
    return handle;
}

static uint64_t retrieve(uint64_t handle, uint32_t permissions)
{
    uint32_t length = put_retrieve(handle, permissions);
    if (!is_done("retrieve is refused:", call(FFA_MEM_RETRIEVE_REQ, length, length, 0, 0, 0)))
        return 0;
    tell("RX names page", get(RX_OF(SELF), 80, 8));
    tell("with permissions", get(RX_OF(SELF), 50, 1));
    call(FFA_RX_RELEASE, 0, 0, 0, 0, 0);
    return 0;
}

static uint64_t relinquish(uint64_t handle)
{
    put_relinquish(handle);
    is_done("relinquish is refused:", call(FFA_MEM_RELINQUISH, 0, 0, 0, 0, 0));
    return 0;
}

static void reclaim(uint64_t handle)
{
    is_done("reclaim is refused:", call(FFA_MEM_RECLAIM, (uint32_t)handle, handle >> 32, 0, 0, 0));
}

/* ---- the hostile partition */

static uint64_t draw(uint64_t *state) /* xorshift */
{
    *state ^= *state << 13;
    *state ^= *state >> 7;
    *state ^= *state << 17;
    return *state;
}

/* Where in a lend to one receiver another byte is a fault, whatever it is. */
static const struct {
    uint8_t at, bytes;
} fields[] = {
    {0, 2},  {2, 2},  {8, 8},  {24, 4}, {28, 4}, {32, 4}, {36, 8}, {44, 4}, {49, 1},
    {51, 1}, {52, 4}, {56, 8}, {64, 4}, {68, 4}, {72, 8}, {80, 1}, {88, 4}, {92, 4},
};

static struct words send_wrong_field(uint64_t *state)
{
    put_send(FFA_MEM_LEND, 0, DATA_OF(SELF), 0x8001, 0);
    size_t field = draw(state) % (sizeof fields / sizeof fields[0]);
    size_t at = fields[field].at + draw(state) % fields[field].bytes;
    put(at, 1, tx[at] ^ (1 + draw(state) % 255));
    return call(FFA_MEM_LEND, 96, 96, 0, 0, 0);
}

static struct words send_noise(uint64_t *state, uint32_t function)
{
    for (size_t at = 0; at < 256; at += 8)
        put(at, 8, draw(state));
    uint64_t length = draw(state) % 8192;
    return call(function, length, length, 0, 0, 0);
}

static struct words send_wrong_length(uint64_t *state)
{
    put_send(FFA_MEM_LEND, 0, DATA_OF(SELF), 0x8001, 0);
    uint64_t length = 97 + draw(state) % 0xffffff00;
    return call(FFA_MEM_LEND, draw(state) % 2 ? length : 96, length, 0, 0, 0);
}

/* A lend or donation without a fault, of a page that is not its own. */
static struct words send_of_others(uint64_t *state)
{
    static const uint64_t pages[] = {LENT, HELD, BLOCK, CLOCK, CODE_OF(0x8002), TX_OF(0x8002), TABLES, IMAGE};
    bool is_lend = draw(state) % 2;
    uint32_t function = is_lend ? FFA_MEM_LEND : FFA_MEM_DONATE;
    put_send(function, draw(state) % 2, pages[draw(state) % 8], 0x8001, 0);
    return call(function, 96, 96, 0, 0, 0);
}

static struct words use_wrong_handle(uint64_t *state, uint64_t handle, uint64_t way)
{
    handle = draw(state) % 2 ? handle : draw(state);
    if (way == 0)
        return call(FFA_MEM_RECLAIM, (uint32_t)handle, handle >> 32, 0, 0, 0);
    if (way == 1) {
        put_relinquish(handle);
        return call(FFA_MEM_RELINQUISH, 0, 0, 0, 0, 0);
    }
    put_retrieve(handle, 0);
    return call(FFA_MEM_RETRIEVE_REQ, 64, 64, 0, 0, 0);
}

static struct words attack(uint64_t *state, uint64_t handle)
{
    uint64_t way = draw(state) % 9;
    if (way < 3)
        return use_wrong_handle(state, handle, way);
    if (way < 5)
        return send_wrong_field(state);
    if (way == 5)
        return send_wrong_length(state);
    if (way == 6)
        return send_of_others(state);
    return send_noise(state, way == 7 ? FFA_MEM_SHARE : FFA_MEM_RETRIEVE_REQ);
}

/* 1,000 wrong calls, of which some name the handle of a live transaction of others. */
static uint64_t attacks(uint64_t handle)
{
    uint64_t state = 0x9e3779b97f4a7c15, invalid = 0, denied = 0, accepted = 0;
    for (int i = 0; i < 1000; i++) {
        struct words reply = attack(&state, handle);
        invalid += (uint32_t)reply.x[0] == FFA_ERROR && (uint32_t)reply.x[2] == FFA_INVALID_PARAMETERS;
        denied += (uint32_t)reply.x[0] == FFA_ERROR && (uint32_t)reply.x[2] == FFA_DENIED;
        accepted += (uint32_t)reply.x[0] != FFA_ERROR;
    }
    tell_in(10, "INVALID_PARAMETERS, times:", invalid);
    tell_in(10, "DENIED, times:", denied);
    tell_in(10, "accepted, times:", accepted);
    return 0;
}

/* ---- what 0x8001 asks the others to do */

enum request { RETRIEVE, RELINQUISH, LOAD, STORE, RUN, LEND, ATTACKS };

/* What a retrieve asks for: all data access that it may have, and with EXECUTABLE instruction access too. */
#define ALL_DATA 0
#define EXECUTABLE 8

static uint64_t answer(enum request request, uint64_t about, uint64_t number)
{
    switch (request) {
    case RETRIEVE: return retrieve(about, (uint32_t)number);
    case RELINQUISH: return relinquish(about);
    case LOAD: return load(about);
    case STORE: store(about, number); return 0;
    case RUN: return run_at(about);
    case LEND: return send(FFA_MEM_LEND, 0, about, 0x8001, 0);
    case ATTACKS: return attacks(about);
    default: return 0;
    }
}

static void serve(void)
{
    struct words asked = call(FFA_MSG_WAIT, 0, 0, 0, 0, 0);
    for (;;) {
        uint64_t parties = asked.x[1] << 16 | asked.x[1] >> 16;
        uint64_t result = answer((enum request)asked.x[3], asked.x[4], asked.x[5]);
        asked = call(FFA_MSG_SEND_DIRECT_RESP_64, (uint32_t)parties, 0, result, 0, 0);
    }
}

static uint64_t ask(uint16_t partition, enum request request, uint64_t about, uint64_t number)
{
    return call(FFA_MSG_SEND_DIRECT_REQ_64, (uint32_t)SELF << 16 | partition, 0, request, about, number).x[3];
}

/* ---- the scenario of 0x8001 */

static void check(void) { call(CHECK, 0, 0, 0, 0, 0); }

/* A page goes to 0x8002 and comes back. */
static void lend(void)
{
    say("a. lends a page to 8002");
    store(LENT, 0x1111);
    uint64_t handle = send(FFA_MEM_LEND, 0, LENT, 0x8002, 0);
    tell_load("reads the page that it lent:", load(LENT));
    check();
    ask(0x8002, RETRIEVE, handle, ALL_DATA);
    tell_load("8002 reads", ask(0x8002, LOAD, LENT, 0));
    ask(0x8002, STORE, LENT, 0x2222);
    check();
    reclaim(handle);
    ask(0x8002, RELINQUISH, handle, 0);
    tell_load("8002 reads", ask(0x8002, LOAD, LENT, 0));
    reclaim(handle);
    tell_load("reads", load(LENT));
    check();
}

/* A page of 0x8001 is read by all three. */
static uint64_t share(void)
{
    say("b. shares a page with 8002 and 8003");
    store(SHARED, 0x3333);
    uint64_t handle = send(FFA_MEM_SHARE, 0, SHARED, 0x8002, 0x8003);
    ask(0x8002, RETRIEVE, handle, ALL_DATA);
    ask(0x8003, RETRIEVE, handle, ALL_DATA);
    tell_load("8002 reads", ask(0x8002, LOAD, SHARED, 0));
    tell_load("8003 reads", ask(0x8003, LOAD, SHARED, 0));
    ask(0x8003, STORE, SHARED, 0x4444);
    tell_load("reads", load(SHARED));
    check();
    return handle;
}

/* A page gets another owner, who lends it to 0x8001. */
static void donate(void)
{
    say("c. donates a page to 8003, cleared");
    store(GIVEN, 0x5555);
    uint64_t handle = send(FFA_MEM_DONATE, 1, GIVEN, 0x8003, 0);
    check();
    ask(0x8003, RETRIEVE, handle, ALL_DATA);
    tell_load("8003 reads", ask(0x8003, LOAD, GIVEN, 0));
    check();
    send(FFA_MEM_LEND, 0, GIVEN, 0x8002, 0);
    handle = ask(0x8003, LEND, GIVEN, 0);
    check();
}

/* A block of 2 MB is split and merged while a page of it is used. */
static void split(void)
{
    say("d. lends a page of its block to 8002");
    store(BLOCK_KEPT, 0x6666);
    store(BLOCK_LENT, 0x7777);
    tell_load("reads beside it", load(BLOCK_KEPT));
    uint64_t handle = send(FFA_MEM_LEND, 0, BLOCK_LENT, 0x8002, 0);
    tell_load("reads the page that it lent:", load(BLOCK_LENT));
    tell_load("reads beside it", load(BLOCK_KEPT));
    ask(0x8002, RETRIEVE, handle, ALL_DATA);
    tell_load("8002 reads", ask(0x8002, LOAD, BLOCK_LENT, 0));
    tell_load("8002 reads beside it", ask(0x8002, LOAD, BLOCK_KEPT, 0));
    check();
    ask(0x8002, RELINQUISH, handle, 0);
    reclaim(handle);
    tell_load("reads", load(BLOCK_LENT));
    tell_load("reads beside it", load(BLOCK_KEPT));
    check();
}

/* 0x8003 calls 1,000 times wrongly, also with the handle of a page that 0x8001 has lent to 0x8002. */
static void withstand(void)
{
    say("e. 8003 makes 1,000 wrong calls");
    uint64_t handle = send(FFA_MEM_LEND, 0, HELD, 0x8002, 0);
    check();
    ask(0x8003, ATTACKS, handle, 0);
    ask(0x8003, LOAD, HELD, 0);
    ask(0x8003, LOAD, TABLES, 0);
    check();
    ask(0x8002, RETRIEVE, handle, ALL_DATA);
    ask(0x8002, RELINQUISH, handle, 0);
    reclaim(handle);
    check();
}

/* A page of code goes to 0x8002, which runs it. */
static void lend_code(void)
{
    say("f. lends a page of its code to 8002");
    uint64_t handle = send(FFA_MEM_LEND, 0, LAST_CODE, 0x8002, 0);
    tell_load("8002 runs", ask(0x8002, RUN, LAST_CODE, 0));
    ask(0x8002, RETRIEVE, handle, EXECUTABLE);
    tell_load("8002 runs", ask(0x8002, RUN, LAST_CODE, 0));
    check();
    ask(0x8002, RELINQUISH, handle, 0);
    reclaim(handle);
    tell_load("8002 runs", ask(0x8002, RUN, LAST_CODE, 0));
    tell_load("runs", run_at(LAST_CODE));
    check();
}

static void unshare(uint64_t handle)
{
    say("g. takes the shared page back");
    ask(0x8002, RELINQUISH, handle, 0);
    ask(0x8003, RELINQUISH, handle, 0);
    reclaim(handle);
    tell_load("8002 reads", ask(0x8002, LOAD, SHARED, 0));
    check();
}

/* A send that finds no heap changes nothing, and is made again. Another is live all the while: it stands where the
   transaction stood that was reclaimed last, a place for which no heap is asked. */
static void starve(void)
{
    say("h. lends a page without heap, and with it");
    uint64_t handle = send(FFA_MEM_LEND, 0, HELD, 0x8002, 0);
    check();
    call(STARVE, 0, 0, 0, 0, 0);
    send(FFA_MEM_LEND, 0, LENT, 0x8002, 0);
    tell_load("reads", load(LENT));
    check();
    reclaim(send(FFA_MEM_LEND, 0, LENT, 0x8002, 0));
    tell_load("reads", load(LENT));
    check();
    reclaim(handle);
}

static void go_through(void)
{
    check();
    lend();
    uint64_t handle = share();
    donate();
    split();
    withstand();
    lend_code();
    unshare(handle);
    starve();
    call(PSCI_SYSTEM_OFF, 0, 0, 0, 0, 0);
}

__attribute__((used)) static void run(void)
{
    is_done("no buffers:", call(FFA_RXTX_MAP_64, TX_OF(SELF), RX_OF(SELF), 1, 0, 0));
    if (SELF == 0x8001)
        go_through();
    else
        serve();
}
