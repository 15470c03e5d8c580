/* A block allocates memory, writes it and hands it to another thread, which gives it back, allocates memory at the same address,
 * since the allocator gives a thread what it gave back last, writes that and hands it over; then the block does as much. Where
 * all that is one variable, the other thread's write comes between two of the block. Pipes hand over, which no log has.
 *
 *   again [NAME]   allocates by the function NAME (malloc): calloc, realloc, reallocarray, memalign, aligned_alloc, posix_memalign,
 *                  mmap, mmap64, shmat, sbrk, brk
 *   again grown    hands over what lies behind other memory, which it lets grow over that once it was freed
 *   again less     hands over memory of which it then keeps less, at the same address
 *   again more     hands over memory that then grows at the same address: in these two cases it stays the same variable */
#define _GNU_SOURCE
#include <malloc.h>
#include <pthread.h>
#include <stddef.h>
#include <stdio.h>
#include <stdlib.h>
#include <string.h>
#include <sys/mman.h>
#include <sys/shm.h>
#include <unistd.h>

/* More than the allocator keeps for each thread. */
enum { BYTES = 2048 };
static const char *name = "malloc";
static int there[2], back[2];

/* A segment of so many bytes; once it is detached it is gone. */
static void *attach(void) {
    int segment = shmget(IPC_PRIVATE, BYTES, 0600);
    void *memory = shmat(segment, NULL, 0);
    shmctl(segment, IPC_RMID, NULL);
    return memory;
}
static void *extend(void) {
    char *end = sbrk(0);
    return brk(end + BYTES) ? NULL : end;
}

static void *allocate(void) {
    void *memory = NULL;
    if (!strcmp(name, "calloc")) return calloc(BYTES, 1);
    if (!strcmp(name, "realloc")) return realloc(NULL, BYTES);
    if (!strcmp(name, "reallocarray")) return reallocarray(NULL, BYTES, 1);
    if (!strcmp(name, "memalign")) return memalign(16, BYTES);
    if (!strcmp(name, "aligned_alloc")) return aligned_alloc(16, BYTES);
    if (!strcmp(name, "posix_memalign")) return posix_memalign(&memory, 16, BYTES) ? NULL : memory;
    if (!strcmp(name, "mmap")) return mmap(NULL, BYTES, PROT_READ | PROT_WRITE, MAP_PRIVATE | MAP_ANONYMOUS, -1, 0);
    if (!strcmp(name, "shmat")) return attach();
    if (!strcmp(name, "sbrk")) return sbrk(BYTES);
    if (!strcmp(name, "brk")) return extend();
    if (!strcmp(name, "mmap64")) return mmap64(NULL, BYTES, PROT_READ | PROT_WRITE, MAP_PRIVATE | MAP_ANONYMOUS, -1, 0);
    return malloc(BYTES);
}
static void give_back(void *memory) {
    if (!strncmp(name, "mmap", 4)) munmap(memory, BYTES);
    else if (!strcmp(name, "shmat")) shmdt(memory);
    else if (!strcmp(name, "sbrk")) sbrk(-BYTES);
    else if (!strcmp(name, "brk")) brk(memory);
    else free(memory);
}

static long *use(long number) {
    long *memory = allocate();
    *memory = number;
    return memory;
}

static void hand_over(int *by, long *memory) {
    if (write(by[1], &memory, sizeof memory) != sizeof memory) perror("write");
}
static long *taken_over(int *by) {
    long *memory = NULL;
    if (read(by[0], &memory, sizeof memory) != sizeof memory) perror("read");
    return memory;
}

static void uses_twice(void) {
    long *before = use(1);
    hand_over(there, before);
    give_back(taken_over(back));
    long *behind = use(3);
    printf("%s\n", before == behind ? "at one address" : "at several addresses");
    give_back(behind);
}

/* The other thread writes what it was handed, and frees it. */
static void grows(void) {
    long *before = malloc(BYTES), *behind = use(1);
    ptrdiff_t place = behind - before;
    hand_over(there, behind);
    taken_over(back);
    volatile long *grown = realloc(before, 2 * BYTES);
    int is_over = grown == before && place > 0 && (size_t)place < 2 * BYTES / sizeof *grown;
    if (is_over) grown[place] = 3;
    printf("%s\n", is_over ? "at one address" : "at several addresses");
    free((void *)grown);
}
static void stays(size_t bytes) {
    long *before = use(1), *behind = malloc(BYTES);
    hand_over(there, before);
    taken_over(back);
    free(behind);
    volatile long *after = realloc(before, bytes);
    printf("%s\n", before == after ? "at one address" : "at several addresses");
    *after = 3;
    free((void *)after);
}
static void *writes_and_frees(void *unused) {
    volatile long *memory = taken_over(there);
    *memory = 2;
    free((void *)memory);
    hand_over(back, NULL);
    return unused;
}
/* (the block itself reads memory before it grows) */
static void *reads(void *unused) {
    volatile long *memory = taken_over(there);
    *memory;
    hand_over(back, NULL);
    return unused;
}

static void *other(void *unused) {
    give_back(taken_over(there));
    hand_over(back, use(2));
    return unused;
}

int main(int words, char **word) {
    pthread_t thread;
    if (words > 1) name = word[1];
    mallopt(M_ARENA_MAX, 1);
    if (pipe(there) || pipe(back)) return 2;
    int is_grown = !strcmp(name, "grown"), is_less = !strcmp(name, "less"), stays_there = is_less || !strcmp(name, "more");
    pthread_create(&thread, NULL, is_grown ? writes_and_frees : stays_there ? reads : other, NULL);
    if (is_grown) grows();
    else if (stays_there) stays(is_less ? BYTES / 2 : 2 * BYTES);
    else uses_twice();
    pthread_join(thread, NULL);
    return 0;
}
