/* make_shards CODEC D P S BLOCK FOLDER
 *
 * Deals the bytes of the file BLOCK out to D data shards and makes P parity shards with libisal.
 * Writes FOLDER/shard-0 to FOLDER/shard-(D+P-1). CODEC is rs or xor; S is the cell size.
 *
 * Byte b is in cell b div S; cell c is in row c div D and shard c mod D. A cell is filled with
 * zeros to S before parity is made. A data shard has its own bytes only; a parity shard is as
 * long as shard 0, so its last cell may be cut.
 */
#include <isa-l.h>
#include <stdio.h>
#include <stdlib.h>
#include <string.h>

#define MOST 16

static void stop(const char *why)
{
	fprintf(stderr, "make_shards: %s\n", why);
	exit(1);
}

/* xor_gen and the fast paths of ec_encode_data want aligned buffers. */
static unsigned char *cell_of(size_t s)
{
	void *at = NULL;
	if (posix_memalign(&at, 64, (s + 63) / 64 * 64))
		stop("no memory");
	memset(at, 0, (s + 63) / 64 * 64);
	return at;
}

static size_t least(size_t a, size_t b)
{
	return a < b ? a : b;
}

int main(int n, char **word)
{
	if (n != 7)
		stop("CODEC D P S BLOCK FOLDER");
	int rs = strcmp(word[1], "rs") == 0;
	if (!rs && strcmp(word[1], "xor") != 0)
		stop("the codec is rs or xor");
	int d = atoi(word[2]), p = atoi(word[3]);
	long size = atol(word[4]);
	if (d < 1 || p < 1 || d + p > MOST || size < 1 || size > 1048576 || (!rs && p != 1))
		stop("outside the limits");
	size_t s = (size_t)size;

	FILE *block = fopen(word[5], "rb");
	if (!block)
		stop("no such block");
	FILE *shard[MOST];
	for (int i = 0; i < d + p; i++) {
		char name[4096];
		if (snprintf(name, sizeof name, "%s/shard-%d", word[6], i) >= (int)sizeof name)
			stop("long name");
		shard[i] = fopen(name, "wb");
		if (!shard[i])
			stop("a shard cannot be written");
	}

	/* Cells of one row: D data, P parity; `nothing` is a source of zeros, as xor_gen asks for
	 * at least two sources. */
	unsigned char *cell[MOST], *nothing = cell_of(s);
	for (int i = 0; i < d + p; i++)
		cell[i] = cell_of(s);
	unsigned char matrix[MOST * MOST], tables[32 * MOST * MOST];
	if (rs) {
		gf_gen_cauchy1_matrix(matrix, d + p, d);
		ec_init_tables(d, p, matrix + d * d, tables);
	}

	unsigned char *row = malloc(s * d);
	if (!row)
		stop("no memory");
	size_t got;
	while ((got = fread(row, 1, s * d, block)) > 0) {
		size_t own[MOST];
		for (int i = 0; i < d; i++) {
			size_t before = least(got, s * i);
			own[i] = least(s, got - before);
			memset(cell[i], 0, s);
			memcpy(cell[i], row + before, own[i]);
		}
		if (rs) {
			ec_encode_data((int)s, d, p, tables, cell, cell + d);
		} else {
			void *all[MOST + 2];
			for (int i = 0; i < d; i++)
				all[i] = cell[i];
			all[d] = nothing;
			all[d + 1] = cell[d];
			if (xor_gen(d + 2, (int)s, all))
				stop("xor_gen");
		}
		for (int i = 0; i < d + p; i++) {
			size_t length = i < d ? own[i] : own[0];
			if (fwrite(cell[i], 1, length, shard[i]) != length)
				stop("a shard cannot be written");
		}
	}
	for (int i = 0; i < d + p; i++)
		if (fclose(shard[i]))
			stop("a shard cannot be written");
	return 0;
}
