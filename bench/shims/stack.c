// How much stack a call takes: it runs on a thread whose stack is painted before, and the deepest octet that changed tells.
#include <pthread.h>
#include <stddef.h>
#include <stdlib.h>
#include <string.h>

enum { STACK_SIZE = 1 << 20, PAGE = 4096 };

struct job {
    void (*work)(void *);
    void *given;
    unsigned char *entry;
};

static void *run(void *given) {
    struct job *job = given;
    job->entry = __builtin_frame_address(0);
    job->work(job->given);
    return NULL;
}

// The octets between the thread's first frame and the deepest octet that no longer has the paint; 0 where no thread can be had.
size_t stack_of(void (*work)(void *), void *given, unsigned char paint) {
    struct job job = {work, given, NULL};
    unsigned char *stack = aligned_alloc(PAGE, STACK_SIZE);
    pthread_attr_t attributes;
    pthread_t thread;
    size_t deepest = 0;
    if (stack == NULL) return 0;
    memset(stack, paint, STACK_SIZE);
    pthread_attr_init(&attributes);
    pthread_attr_setstack(&attributes, stack, STACK_SIZE);
    if (pthread_create(&thread, &attributes, run, &job) == 0) {
        pthread_join(thread, NULL);
        while (stack[deepest] == paint) deepest++;
        deepest = (size_t)(job.entry - stack) - deepest;
    }
    pthread_attr_destroy(&attributes);
    free(stack);
    return deepest;
}
