/* A peer for the shared counters: fetch_add by 1, 2 and 4 threads, each on a counter (a cache line) of
 * its own, or all on one. Usage: adds [ADDS], how often each thread adds (1,000,000, as `bench maps` does). */
#include <pthread.h>
#include <stdatomic.h>
#include <stdio.h>
#include <stdlib.h>
#include <time.h>

enum { MOST = 4, APART = 64 / sizeof(atomic_ulong) };

static _Alignas(64) atomic_ulong counters[MOST * APART];
static long adds = 1000000;

static double now(void)
{
	struct timespec at;
	clock_gettime(CLOCK_MONOTONIC, &at);
	return at.tv_sec + at.tv_nsec * 1e-9;
}

static void *work(void *place)
{
	for (long i = 0; i < adds; i++)
		atomic_fetch_add(&counters[(long)place * APART], 1);
	return 0;
}

static void measure(long count, int apart)
{
	pthread_t threads[MOST];
	double start = now();
	for (long i = 0; i < count; i++)
		if (pthread_create(&threads[i], 0, work, (void *)(apart ? i : 0)))
			exit(3);
	for (long i = 0; i < count; i++)
		pthread_join(threads[i], 0);
	printf("%ld seats on %s: %.0f million adds a second\n", count,
	       apart ? "counters of their own" : "one counter", count * adds / (now() - start) / 1e6);
}

int main(int words, char **word)
{
	if (words > 1)
		adds = atol(word[1]);
	for (long count = 1; count <= MOST; count *= 2) {
		measure(count, 1);
		measure(count, 0);
	}
	return 0;
}
