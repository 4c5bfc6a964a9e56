/* What the programs ask of a C library, for a host with one thread: a page, or node.
   It is no part of what is proved. Pointers and lengths go to the host as doubles, which hold each of them exactly. */
typedef unsigned char u8;
typedef unsigned int u32;
typedef unsigned long long u64;
typedef long long i64;
#define HOST(name) __attribute__((import_module("host"), import_name(#name)))
HOST(read) double host_read(double at, double room);
HOST(write) double host_write(int stream, double at, double length);
HOST(word) double host_word(int place, double at, double room);
HOST(ended) _Noreturn void host_ended(int status);
HOST(fault) _Noreturn void host_fault(int which);
enum { ABORTED, JOINED, WAITED, RESTED };

/* Memory: blocks of sizes 2^k * (4 + j) / 4, each after a head with its size's number; free ones in a list for each. */
enum { PAGE = 65536, LEAST = 64, HEAD = 16 };
extern u8 __heap_base;
static u64 next, end;
static u8 *lists[256];
static u8 nothing;
struct tried { u64 given, at; };

static u32 number_of(u64 bytes) {
  u64 size = bytes < LEAST ? LEAST : bytes;
  u32 power = 63 - (u32)__builtin_clzll(size);
  u64 quarter = 1ull << (power - 2);
  return power * 4 + (u32)((size - (1ull << power) + quarter - 1) / quarter);
}

static u64 size_of(u32 number) {
  return (1ull << (number / 4)) + ((u64)(number % 4) << (number / 4 - 2));
}

static u32 *head_of(u8 *block) { return (u32 *)(block - HEAD); }

/* Makes the memory larger by a quarter, or by what is wanted, so that there is room up to `wanted`. */
static int grown(u64 wanted) {
  if (!end) {
    next = ((u64)&__heap_base + HEAD - 1) / HEAD * HEAD;
    end = (u64)__builtin_wasm_memory_size(0) * PAGE;
  }
  if (next + wanted <= end) return 1;
  u64 pages = (next + wanted - end + PAGE - 1) / PAGE, more = end / PAGE / 4;
  if (more > pages && __builtin_wasm_memory_grow(0, more) != ~0ul) pages = 0;
  if (pages && __builtin_wasm_memory_grow(0, pages) == ~0ul) return 0;
  end = (u64)__builtin_wasm_memory_size(0) * PAGE;
  return 1;
}

static u8 *block_of(u64 bytes) {
  if (bytes > 1ull << 40) return 0;
  u32 number = number_of(bytes + HEAD);
  u8 *block = lists[number];
  if (block) {
    lists[number] = *(u8 **)block;
    return block;
  }
  if (!grown(size_of(number))) return 0;
  block = (u8 *)next + HEAD;
  next += size_of(number);
  *head_of(block) = number;
  return block;
}

void rattle_dealloc(u8 *block) {
  u32 number = *head_of(block);
  *(u8 **)block = lists[number];
  lists[number] = block;
}

struct tried rattle_alloc(u64 bytes, u64 align) {
  u8 *block = block_of(bytes ? bytes : align);
  return (struct tried){block != 0, (u64)(block ? block : &nothing)};
}

struct tried rattle_realloc(u8 *block, u64 kept, u64 bytes, u64 align) {
  u64 room = size_of(*head_of(block)) - HEAD, wanted = bytes ? bytes : align;
  if (wanted <= room && wanted >= room / 4) return (struct tried){1, (u64)block};
  u8 *moved = block_of(wanted);
  if (!moved) return (struct tried){0, (u64)&nothing};
  __builtin_memcpy(moved, block, wanted < room ? wanted : room);
  rattle_dealloc(block);
  return (struct tried){1, (u64)moved};
}

void *malloc(u64 bytes) { return block_of(bytes); }
void free(u8 *block) {
  if (block) rattle_dealloc(block);
}

/* Bytes in and out, the words, and the end. */
i64 read(int stream, u8 *at, u64 room) { return stream ? -1 : (i64)host_read((double)(u64)at, (double)room); }
i64 write(int stream, const u8 *at, u64 length) {
  return (i64)host_write(stream, (double)(u64)at, (double)length);
}
i64 __write(int stream, const u8 *at, u64 length) { return write(stream, at, length); }
u64 rattle_arg(u64 place, u8 *at, u64 room) {
  return (u64)(i64)host_word((int)place, (double)(u64)at, (double)room);
}
static int error;
int rattle_errno(void) { return error; }
void rattle_set_errno(int now) { error = now; }
_Noreturn void _exit(int status) { host_ended(status); }
_Noreturn void abort(void) { host_fault(ABORTED); }

/* Threads: none is made, so what a thread would be asked for never comes. */
enum { TRY_AGAIN = 11, FEW = 100000000 };
int pthread_attr_init(void *it) { return 0; }
int pthread_attr_destroy(void *it) { return 0; }
int pthread_attr_setguardsize(void *it, u64 size) { return 0; }
int pthread_attr_setstacksize(void *it, u64 size) { return 0; }
int pthread_create(void *made, void *how, void *starts, void *with) { return TRY_AGAIN; }
int pthread_detach(u64 thread) { host_fault(JOINED); }
int pthread_join(u64 thread, void **gave) { host_fault(JOINED); }
u64 pthread_self(void) { host_fault(JOINED); }
/* A futex: one that wakes wakes nobody, and one that waits would wait for ever. */
i64 syscall(i64 number, void *at, i64 what, i64 value, void *time, ...) {
  if (what & 1) return 0;
  host_fault(WAITED);
}
int sched_yield(void) {
  static u64 times;
  if (++times > FEW) host_fault(RESTED);
  return 0;
}
i64 __sysv_signal(int number, i64 handler) { return 0; }

/* No instruction of a certain processor is missed. */
static u32 all[16] = {~0u, ~0u, ~0u, ~0u, ~0u, ~0u, ~0u, ~0u, ~0u, ~0u, ~0u, ~0u, ~0u, ~0u, ~0u, ~0u};
void *__x86_get_cpuid_feature_leaf(int leaf) { return all; }
