/* The hidden scheduler, which generated programs call. The logger's wrapper doesn't compile it, so it adds nothing to a log. */
#ifndef SCHEDULER_H
#define SCHEDULER_H
#include <stddef.h>
#ifdef __cplusplus
extern "C" {
#endif
void stage_turn(int step);           /* waits until it is the step's turn */
void stage_done(int step);           /* lets the step behind this one go on */
void stage_put(int variable, const volatile void *at, size_t size);     /* says where a variable is from now on */
void *stage_at(int variable);
void stage_remove(int variable);     /* says that a variable isn't there any more */
void stage_bytes(int number, const volatile void *at);  /* says where 24 bytes are from now on, as places.py has them */
void stage_gone(int number);         /* says that they aren't there any more */
extern char stage_pool[];            /* memory whose first byte 16 divides */
void stage_thing(const char *kind, int number, const volatile void *at);        /* says where a lock or the like is */
void stage_finish(int steps);        /* waits for all steps, and writes where things were to the file STAGE_TABLE */
long stage_any(void);                /* a number that the compiler doesn't know */
size_t stage_same(size_t number);    /* the number, unknown to the compiler */
void stage_use(long value);
void stage_use_real(double value);
void stage_see(const volatile void *at);
void *stage_pass(void *at);
void *stage_source(void);            /* bytes that nobody writes */
void *stage_scratch(void);           /* bytes of the thread's own */
long stage_peek(const volatile void *at, size_t size);  /* the value there, read without an event */
void *stage_stack(int thread);       /* 128 KiB for the thread's stack */
char *stage_text(void *at, size_t length);  /* puts a text of that length there, without an event, and returns its address */
void stage_flag(int number);         /* sets a flag, without an event */
int stage_flagged(int number);
void stage_arrived(const volatile void *barrier, unsigned count);   /* waits until so many threads are in the barrier */
void stage_wait(int number);         /* waits for the flag, and until what its thread calls next is under way */
void stage_unwind(void);             /* looks at the stack, as an exception does */
void stage_in_signal(void (*call)(void));
void stage_in_sort(void (*call)(void));

#define EACH_SIZE(f) f(1) f(2) f(3) f(4) f(5) f(7) f(8) f(12) f(13) f(16) f(17) f(24) f(31) f(32) f(33) f(64) f(100) f(128) \
    f(256) f(1000) f(1024) f(4096) f(6000)
#define EACH_COUNT(f) f(1) f(2) f(3) f(4) f(7) f(16) f(64) f(1024)
#define CALLS(type) struct type stage_make_##type(void); void stage_take_##type(struct type);
#define BYTES(n) struct bytes##n { char b[n]; }; CALLS(bytes##n)
#define INTS(n) struct ints##n { int b[n]; }; CALLS(ints##n)
EACH_SIZE(BYTES)
EACH_COUNT(INTS)
struct mixed { int a; char c; double d; short b[3]; };
CALLS(mixed)
struct longs { long b[2]; };
CALLS(longs)
struct floats { float b[4]; };
CALLS(floats)
#ifdef __cplusplus
}
#endif
#endif
