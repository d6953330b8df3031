/* The interpreter of DPDK's librte_bpf, and its JIT, on straight-line code: nanoseconds a slot.
 * Usage: dpdk_bpf FILE RUNS: raw slots (lowest byte first), and how often they are run. */
#include <rte_bpf.h>
#include <stdio.h>
#include <stdlib.h>
#include <string.h>
#include <time.h>

enum { MOST = 4096 };

static double now(void)
{
	struct timespec at;
	clock_gettime(CLOCK_MONOTONIC, &at);
	return at.tv_sec + at.tv_nsec * 1e-9;
}

static struct rte_bpf *load(const char *name, size_t *slots)
{
	static struct ebpf_insn code[MOST];
	struct rte_bpf_prm given;
	FILE *file = fopen(name, "rb");
	if (!file) {
		perror(name);
		exit(3);
	}
	*slots = fread(code, sizeof *code, MOST, file);
	fclose(file);
	memset(&given, 0, sizeof given);
	given.ins = code;
	given.nb_ins = *slots;
	given.prog_arg.type = RTE_BPF_ARG_PTR;
	given.prog_arg.size = 64;
	return rte_bpf_load(&given);
}

int main(int words, char **word)
{
	static unsigned char context[64];
	struct rte_bpf_jit compiled;
	volatile unsigned long long sum = 0;
	size_t slots;
	if (words != 3) {
		fprintf(stderr, "usage: dpdk_bpf FILE RUNS\n");
		return 2;
	}
	struct rte_bpf *loaded = load(word[1], &slots);
	long runs = atol(word[2]);
	if (!loaded) {
		fprintf(stderr, "refused\n");
		return 1;
	}
	double start = now();
	for (long i = 0; i < runs; i++)
		sum += rte_bpf_exec(loaded, context);
	printf("interpreter %.3f\n", (now() - start) / runs / slots * 1e9);
	if (rte_bpf_get_jit(loaded, &compiled) == 0 && compiled.func) {
		start = now();
		for (long i = 0; i < runs; i++)
			sum += compiled.func(context);
		printf("jit %.3f\n", (now() - start) / runs / slots * 1e9);
	}
	return 0;
}
