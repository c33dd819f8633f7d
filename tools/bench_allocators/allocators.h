/* What bench.c calls: kernel.c has the kernel's allocators behind it, pearoar.c ours. Sizes and places are in pages. */
#ifndef ALLOCATORS_H
#define ALLOCATORS_H

#include <stdbool.h>
#include <stdint.h>

enum mode { BEST, LOW, HIGH };
enum flags { PLAIN = 0, TOPDOWN = 1, CONTIGUOUS = 2 };

/* A run ends with this status where the kernel has no such call. */
enum { NO_SUCH_CALL = 3 };

struct request {
	uint32_t pages, align, first, last;
	enum mode mode;
	enum flags flags;
};

/* A slot is what a caller keeps of a span or of a request's blocks; there are so many. Both tell where what was taken starts. */
void ranges_open(uint32_t pages, uint32_t slots);
bool ranges_insert(uint32_t slot, const struct request *request, uint32_t *start);
void ranges_remove(uint32_t slot);

void blocks_open(uint32_t pages, uint32_t slots);
bool blocks_alloc(uint32_t slot, const struct request *request, uint32_t *start);
void blocks_release(uint32_t slot);

#endif
