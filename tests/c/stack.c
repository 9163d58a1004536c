/* How much stack each call of the header takes, by what it leaves of a pattern on a stack of its own, on devices with full
   and with empty tables and logs; what the caller puts there to hand a state over and take one back counts too. None may take
   more than the header asks its callers for. */
#define _DEFAULT_SOURCE
#include <pthread.h>
#include <string.h>

#include "expect.h"
#include "stack.h"

#define ROOM (256 * 1024)
#define PATTERN 0xab

static _Alignas(4096) uint8_t stack[ROOM];
static void (*made)(void); /* the call that the thread makes */

static void *work(void *unused)
{
    made();
    return unused;
}

static void nothing(void)
{
}

/* The bytes of stack that a thread of this call wrote to. */
static size_t touched_by(void (*call)(void))
{
    pthread_attr_t attributes;
    pthread_t thread;
    made = call;
    memset(stack, PATTERN, sizeof stack);
    EXPECT(pthread_attr_init(&attributes) == 0);
    EXPECT(pthread_attr_setstack(&attributes, stack, sizeof stack) == 0);
    EXPECT(pthread_create(&thread, &attributes, work, NULL) == 0);
    EXPECT(pthread_join(thread, NULL) == 0);
    size_t untouched = 0;
    while (stack[untouched] == PATTERN)
        untouched++;
    return sizeof stack - untouched;
}

static size_t thread_alone, count, most;
static const char *deepest = "nothing";

static void measure(const char *name, void (*call)(void))
{
    size_t taken = touched_by(call) - thread_alone;
    count++;
    if (taken > most)
        most = taken, deepest = name;
    if (taken > VIOMMU_STACK_BYTES)
        fprintf(stderr, "stack: %zu bytes by %s\n", taken, name);
}

int main(void)
{
    static struct stack_devices devices;
    devices = stack_devices();
    thread_alone = touched_by(nothing);
    every_call(&devices, measure);
    printf("stack: %zu calls, at most %zu bytes, by %s, of %d\n", count, most, deepest, VIOMMU_STACK_BYTES);
    EXPECT(most <= VIOMMU_STACK_BYTES);
    return 0;
}
