/* make_parity COUNT
 *
 * Writes COUNT lines of cells and their parity as libisal makes it:
 *   encode D P CELL... => PARITY...     ec_encode_data with gf_gen_cauchy1_matrix
 *   xor D CELL... => PARITY             xor_gen
 * The first lines are the limits of D and P; then D, P and the cells are drawn. Every sixth line
 * is xor. The numbers drawn are the same on every run.
 */
#include <isa-l.h>
#include <stdint.h>
#include <stdio.h>
#include <stdlib.h>
#include <string.h>

#define MOST 16
#define LONGEST 40

static uint64_t state = 20240229;

/* Linear congruence modulo 2^64; the upper half is used. */
static uint32_t draw(uint32_t below)
{
	state = state * 6364136223846793005u + 1442695040888963407u;
	return (uint32_t)(state >> 32) % below;
}

static void show(const unsigned char *cell, int length)
{
	putchar(' ');
	for (int i = 0; i < length; i++)
		printf("%02x", cell[i]);
}

/* cells: one 64-byte aligned place each, the last one all zeros. */
static unsigned char place[(MOST + 1) * 64] __attribute__((aligned(64)));

static void line(int rs, int d, int p, int length, int counting)
{
	unsigned char *cell[MOST + 1];
	for (int i = 0; i <= MOST; i++)
		cell[i] = place + 64 * i;
	memset(place, 0, sizeof place);
	int kind = (int)draw(8);
	for (int i = 0; i < d; i++)
		for (int j = 0; j < length; j++)
			cell[i][j] = counting ? (unsigned char)(i + 1)
				: kind == 0 ? (unsigned char)(draw(4) ? 0 : draw(256))
				: kind == 1 ? (unsigned char)(255 - draw(2))
				: (unsigned char)draw(256);
	if (rs) {
		unsigned char matrix[MOST * MOST], tables[32 * MOST * MOST];
		gf_gen_cauchy1_matrix(matrix, d + p, d);
		ec_init_tables(d, p, matrix + d * d, tables);
		ec_encode_data(length, d, p, tables, cell, cell + d);
		printf("encode %d %d", d, p);
	} else {
		void *all[MOST + 2];
		for (int i = 0; i < d; i++)
			all[i] = cell[i];
		all[d] = cell[MOST];
		all[d + 1] = cell[d];
		if (xor_gen(d + 2, length, all)) {
			fprintf(stderr, "make_parity: xor_gen\n");
			exit(1);
		}
		printf("xor %d", d);
	}
	for (int i = 0; i < d; i++)
		show(cell[i], length);
	printf(" =>");
	for (int i = d; i < d + p; i++)
		show(cell[i], length);
	putchar('\n');
}

int main(int n, char **word)
{
	int count = n == 2 ? atoi(word[1]) : 0;
	if (count < 1) {
		fprintf(stderr, "make_parity COUNT\n");
		return 1;
	}
	static const int limit[][2] = {
		{3, 2}, {1, 1}, {15, 1}, {1, 15}, {10, 4}, {6, 3}, {8, 8}, {12, 4}, {2, 14}, {14, 2},
	};
	int made = 0;
	line(1, 3, 2, 1, 1);
	made++;
	for (size_t i = 0; i < sizeof limit / sizeof limit[0]; i++)
		for (int k = 0; k < 2 && made < count; k++, made++)
			line(1, limit[i][0], limit[i][1], k ? LONGEST : 1, 0);
	for (int d = 1; d <= MOST - 1 && made < count; d += 7, made++)
		line(0, d, 1, LONGEST, 0);
	for (; made < count; made++) {
		int rs = made % 6 != 0;
		int d = 1 + (int)draw(MOST - 1);
		int p = rs ? 1 + (int)draw((uint32_t)(MOST - d)) : 1;
		/* Mostly short, now and then up to the longest */
		int length = draw(5) ? 1 + (int)draw(8) : 1 + (int)draw(LONGEST);
		line(rs, d, p, length, 0);
	}
	return 0;
}
