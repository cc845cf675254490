// What `bench/guard` compares with: the read side of liburcu (Debian's liburcu-dev), and a writer that puts another version in and waits until no
// reader has the old one. Usage: guard_urcu READERS LOOPS COMMITS. With commits, the readers look until the last one. Prints how many looks were made.
#include <pthread.h>
#include <stdio.h>
#include <stdlib.h>
#include <urcu.h>

struct version {
    unsigned long number;
};

static struct version *root;
static unsigned long loops, commits;
static int done;

static void *reader(void *looks)
{
    unsigned long count = 0, last = 0;
    rcu_register_thread();
    while (commits == 0 ? count < loops : !__atomic_load_n(&done, __ATOMIC_SEQ_CST)) {
        rcu_read_lock();
        last = *(volatile unsigned long *)&rcu_dereference(root)->number;
        rcu_read_unlock();
        count++;
    }
    rcu_unregister_thread();
    *(unsigned long *)looks = count + (last == ~0ul);
    return NULL;
}

static void *writer(void *nothing)
{
    for (unsigned long number = 1; number <= commits; number++) {
        struct version *next = malloc(sizeof *next);
        next->number = number;
        struct version *old = rcu_xchg_pointer(&root, next);
        synchronize_rcu();
        free(old);
    }
    __atomic_store_n(&done, 1, __ATOMIC_SEQ_CST);
    return nothing;
}

int main(int count, char **words)
{
    if (count != 4)
        return 2;
    unsigned long readers = strtoul(words[1], NULL, 10), sum = 0;
    loops = strtoul(words[2], NULL, 10);
    commits = strtoul(words[3], NULL, 10);
    unsigned long *looks = calloc(readers, sizeof *looks);
    pthread_t *threads = calloc(readers + 1, sizeof *threads);
    root = calloc(1, sizeof *root);
    for (unsigned long i = 0; i < readers; i++)
        pthread_create(&threads[i], NULL, reader, &looks[i]);
    if (commits > 0) {
        pthread_create(&threads[readers], NULL, writer, NULL);
        pthread_join(threads[readers], NULL);
    }
    for (unsigned long i = 0; i < readers; i++) {
        pthread_join(threads[i], NULL);
        sum += looks[i];
    }
    printf("%lu looks\n", sum);
    return 0;
}
