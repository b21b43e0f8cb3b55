/* Records what a node's allocators are asked for. tools/record builds this with the header of the node, and loads it
 * by record_node.erl. It puts functions of its own into the emulator's table of allocators, which call the former
 * ones. For a test node: what is recorded costs it time, and memory that is taken when recording begins.
 *
 * A block that is allocated is noted after the call, and one that is freed before it, so no block is noted as
 * allocated where the one that lay there before is not yet noted as freed. A reallocation is noted twice.
 *
 * What is noted lies in a file without a name, which tools/record has open, too: so it is left if the node ends. First
 * come the events, then the names of the threads, and then what is kept of each mark. */
#define _GNU_SOURCE
#include <dlfcn.h>
#include <link.h>
#include <stdatomic.h>
#include <stdint.h>
#include <stdio.h>
#include <string.h>
#include <sys/mman.h>
#include <sys/prctl.h>
#include <unistd.h>
#include <erl_nif.h>

#define MOST_ALLOCATORS 16
#define MOST_THREADS 1024
#define NAME_BYTES 16

/* An entry of the emulator's table. */
struct functions {
    void *(*alloc)(uintptr_t type, void *extra, uintptr_t size);
    void *(*realloc)(uintptr_t type, void *extra, void *block, uintptr_t size);
    void (*free)(uintptr_t type, void *extra, void *block);
    void *extra;
};

enum kind { LOST, ALLOC, REALLOC, TO, FREE };
static const char *const words[] = {"lost", "alloc", "realloc", "to", "free"};

/* `kind` is written last: a thread that was held up in between leaves LOST. */
struct event {
    uintptr_t block, size;
    uint16_t thread;
    uint8_t allocator;
    _Atomic uint8_t kind;
};

static struct functions *table;
static int table_length;
static const char *const *names;
static struct functions former[MOST_ALLOCATORS];
static unsigned chosen;

static struct event *events;
static uint64_t room;
static int store = -1;
/* Where what is kept of the next mark begins. */
static uint64_t next_mark;
/* From the start of a recording until it is written. */
static int has_events;
static atomic_ullong taken;
static atomic_int is_on;

static atomic_uint thread_count;
static char thread_names[MOST_THREADS][NAME_BYTES + 1];
static __thread unsigned own_number;

/* The bytes of all events, after which come the names. */
static uint64_t event_bytes(void) { return room * sizeof *events; }

static int put(const void *data, size_t bytes, uint64_t at) { return pwrite(store, data, bytes, at) == (ssize_t)bytes; }

static int put_name(unsigned number) {
    return put(thread_names[number], sizeof *thread_names, event_bytes() + number * sizeof *thread_names);
}

/* The number of the calling thread, from 1 on; 0 for those above the limit. */
static unsigned thread_number(void) {
    if (!own_number) {
        unsigned number = 1 + atomic_fetch_add(&thread_count, 1);
        if (number >= MOST_THREADS)
            return 0;
        prctl(PR_GET_NAME, thread_names[number]);
        put_name(number);
        own_number = number;
    }
    return own_number;
}

/* Puts the former functions back. */
static void end_recording(void) {
    if (!atomic_exchange(&is_on, 0))
        return;
    for (int it = 0; it < table_length; it++)
        if (chosen >> it & 1) {
            __atomic_store_n(&table[it].alloc, former[it].alloc, __ATOMIC_SEQ_CST);
            __atomic_store_n(&table[it].realloc, former[it].realloc, __ATOMIC_SEQ_CST);
            __atomic_store_n(&table[it].free, former[it].free, __ATOMIC_SEQ_CST);
        }
}

static void note(enum kind kind, int allocator, void *block, uintptr_t size) {
    if (!block || !atomic_load(&is_on))
        return;
    uint64_t at = atomic_fetch_add(&taken, 1);
    if (at >= room) {
        end_recording();
        return;
    }
    struct event *it = &events[at];
    it->block = (uintptr_t)block;
    it->size = size;
    it->allocator = allocator;
    it->thread = thread_number();
    atomic_store_explicit(&it->kind, kind, memory_order_release);
}

static void *alloc_of(int it, uintptr_t type, void *extra, uintptr_t size) {
    void *block = former[it].alloc(type, extra, size);
    note(ALLOC, it, block, size);
    return block;
}

static void *realloc_of(int it, uintptr_t type, void *extra, void *old, uintptr_t size) {
    note(REALLOC, it, old, size);
    void *block = former[it].realloc(type, extra, old, size);
    if (old)
        note(TO, it, block, size);
    else
        note(ALLOC, it, block, size);
    return block;
}

static void free_of(int it, uintptr_t type, void *extra, void *block) {
    note(FREE, it, block, 0);
    former[it].free(type, extra, block);
}

/* The table's functions learn by `extra` alone which allocator is called, and that is the former one's. */
#define OWN(it) \
    static void *alloc_##it(uintptr_t type, void *extra, uintptr_t size) { return alloc_of(it, type, extra, size); } \
    static void *realloc_##it(uintptr_t type, void *extra, void *block, uintptr_t size) { \
        return realloc_of(it, type, extra, block, size); \
    } \
    static void free_##it(uintptr_t type, void *extra, void *block) { free_of(it, type, extra, block); }
#define EACH(M) M(0) M(1) M(2) M(3) M(4) M(5) M(6) M(7) M(8) M(9) M(10) M(11) M(12) M(13) M(14) M(15)
#define ENTRY(it) {alloc_##it, realloc_##it, free_##it, 0},
EACH(OWN)
static const struct functions own[] = {EACH(ENTRY)};

/* ----------------------------------------------------------------------------------------------------------------- */

static ERL_NIF_TERM failed(ErlNifEnv *env, const char *reason) {
    return enif_make_tuple2(env, enif_make_atom(env, "error"), enif_make_atom(env, reason));
}

/* An exported table of the emulator, and its bytes. */
static void *find_table(const char *name, uint64_t *bytes) {
    Dl_info info;
    ElfW(Sym) *symbol = NULL;
    void *found = dlsym(RTLD_DEFAULT, name);
    if (!found || !dladdr1(found, &info, (void **)&symbol, RTLD_DL_SYMENT) || !symbol)
        return NULL;
    *bytes = symbol->st_size;
    return found;
}

/* table() -> {ok, [{Number, Name}]} | {error, no_table | other_table}. It is taken only where the table of names has
 * an entry more than that of functions, an entry of which is then as large as `struct functions`. */
static ERL_NIF_TERM nif_table(ErlNifEnv *env, int argc, const ERL_NIF_TERM argv[]) {
    uint64_t bytes = 0, name_bytes = 0;
    struct functions *found = find_table("erts_allctrs", &bytes);
    const char *const *found_names = find_table("erts_alc_a2ad", &name_bytes);
    if (!found || !found_names)
        return failed(env, "no_table");
    uint64_t length = bytes / sizeof(struct functions);
    if (bytes % sizeof(struct functions) || name_bytes != (length + 1) * sizeof(char *) || length > MOST_ALLOCATORS)
        return failed(env, "other_table");
    ERL_NIF_TERM list = enif_make_list(env, 0);
    for (int it = length - 1; it >= 0; it--)
        if (found_names[it] && found[it].alloc && found[it].realloc && found[it].free) {
            ERL_NIF_TERM name = enif_make_string(env, found_names[it], ERL_NIF_LATIN1);
            list = enif_make_list_cell(env, enif_make_tuple2(env, enif_make_int(env, it), name), list);
        }
    table = found, table_length = length, names = found_names;
    return enif_make_tuple2(env, enif_make_atom(env, "ok"), list);
}

/* Takes memory for that many events, in a file of its own. */
static int take_room(uint64_t wanted) {
    if (events)
        munmap(events, event_bytes());
    if (store >= 0)
        close(store);
    room = wanted, events = MAP_FAILED, next_mark = event_bytes() + sizeof thread_names;
    store = memfd_create("record", MFD_CLOEXEC);
    if (store >= 0 && !ftruncate(store, next_mark) && put(thread_names, sizeof thread_names, event_bytes()))
        events = mmap(NULL, event_bytes(), PROT_READ | PROT_WRITE, MAP_SHARED, store, 0);
    if (events != MAP_FAILED)
        return 1;
    events = NULL;
    return 0;
}

/* start(Events, [Number]) -> {ok, File} | {error, busy | memory}. Memory is taken for that many events; File is the
 * node's number of the file in which they lie. */
static ERL_NIF_TERM nif_start(ErlNifEnv *env, int argc, const ERL_NIF_TERM argv[]) {
    ErlNifUInt64 wanted;
    ERL_NIF_TERM head, rest = argv[1];
    int number;
    if (!table || !enif_get_uint64(env, argv[0], &wanted) || wanted < 1 || wanted > UINT64_C(1) << 32)
        return enif_make_badarg(env);
    if (has_events)
        return failed(env, "busy");
    if (!take_room(wanted))
        return failed(env, "memory");
    chosen = 0;
    while (enif_get_list_cell(env, rest, &head, &rest))
        if (enif_get_int(env, head, &number) && number >= 0 && number < table_length)
            chosen |= 1u << number;
    has_events = 1;
    atomic_store(&taken, 0);
    memcpy(former, table, table_length * sizeof *table);
    atomic_store(&is_on, 1);
    for (int it = 0; it < table_length; it++)
        if (chosen >> it & 1) {
            __atomic_store_n(&table[it].free, own[it].free, __ATOMIC_SEQ_CST);
            __atomic_store_n(&table[it].realloc, own[it].realloc, __ATOMIC_SEQ_CST);
            __atomic_store_n(&table[it].alloc, own[it].alloc, __ATOMIC_SEQ_CST);
        }
    return enif_make_tuple2(env, enif_make_atom(env, "ok"), enif_make_int(env, store));
}

static uint64_t count(void) {
    uint64_t all = atomic_load(&taken);
    return all < room ? all : room;
}

/* count() -> {Events, IsOn} */
static ERL_NIF_TERM nif_count(ErlNifEnv *env, int argc, const ERL_NIF_TERM argv[]) {
    ERL_NIF_TERM on = enif_make_atom(env, atomic_load(&is_on) ? "true" : "false");
    return enif_make_tuple2(env, enif_make_uint64(env, count()), on);
}

static ERL_NIF_TERM nif_stop(ErlNifEnv *env, int argc, const ERL_NIF_TERM argv[]) {
    end_recording();
    return enif_make_atom(env, "ok");
}

/* keep(Binary) -> ok | {error, write}. Keeps what is told of a mark after what was kept before. */
static ERL_NIF_TERM nif_keep(ErlNifEnv *env, int argc, const ERL_NIF_TERM argv[]) {
    ErlNifBinary told;
    if (!has_events || !enif_inspect_binary(env, argv[0], &told))
        return enif_make_badarg(env);
    if (!put(told.data, told.size, next_mark))
        return failed(env, "write");
    next_mark += told.size;
    return enif_make_atom(env, "ok");
}

static void write_event(FILE *file, const struct event *it, const char *letters) {
    enum kind kind = atomic_load_explicit(&it->kind, memory_order_acquire);
    if (kind == LOST)
        fprintf(file, "lost\n");
    else if (kind == ALLOC || kind == REALLOC)
        fprintf(file, "%s %c %u %lx %lu\n", words[kind], letters[it->allocator], it->thread, it->block, it->size);
    else
        fprintf(file, "%s %c %u %lx\n", words[kind], letters[it->allocator], it->thread, it->block);
}

/* write(Path, Letters) -> {ok, [{Thread, Name}]} | {error, write}. The character of Letters at an allocator's number is
 * its letter. After it the memory of the events is given back, but not its place: a thread may still be about to note
 * one. */
static ERL_NIF_TERM nif_write(ErlNifEnv *env, int argc, const ERL_NIF_TERM argv[]) {
    char path[4096], letters[MOST_ALLOCATORS + 1];
    if (!has_events || atomic_load(&is_on) || enif_get_string(env, argv[0], path, sizeof path, ERL_NIF_LATIN1) <= 0
        || enif_get_string(env, argv[1], letters, sizeof letters, ERL_NIF_LATIN1) <= table_length)
        return enif_make_badarg(env);
    FILE *target = fopen(path, "w");
    if (!target)
        return failed(env, "write");
    for (uint64_t it = 0; it < count(); it++)
        write_event(target, &events[it], letters);
    int is_bad = ferror(target);
    is_bad |= fclose(target);
    madvise(events, event_bytes(), MADV_REMOVE);
    has_events = 0;
    ERL_NIF_TERM list = enif_make_list(env, 0);
    unsigned last = atomic_load(&thread_count);
    for (unsigned it = last < MOST_THREADS ? last : MOST_THREADS - 1; it > 0; it--) {
        ERL_NIF_TERM name = enif_make_string(env, thread_names[it], ERL_NIF_LATIN1);
        list = enif_make_list_cell(env, enif_make_tuple2(env, enif_make_uint(env, it), name), list);
    }
    return is_bad ? failed(env, "write") : enif_make_tuple2(env, enif_make_atom(env, "ok"), list);
}

static ErlNifFunc nifs[] = {
    {"table", 0, nif_table, 0},
    {"start", 2, nif_start, 0},
    {"count", 0, nif_count, 0},
    {"keep", 1, nif_keep, 0},
    {"stop", 0, nif_stop, 0},
    {"write", 2, nif_write, ERL_NIF_DIRTY_JOB_IO_BOUND},
};

static int load(ErlNifEnv *env, void **data, ERL_NIF_TERM info) { return 0; }

ERL_NIF_INIT(record_node, nifs, load, NULL, NULL, NULL)
