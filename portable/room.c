/* Memory for a caller of odif.wasm: nothing in the library allocates, so whoever loads it lends from one room of fixed size, which is large enough for
   every question about the largest stream: the most is lent for its sources, 12 octets for each of half a million headers. */
#include <stddef.h>
#include <stdint.h>

#define SIZE (8u << 20)

static uint32_t space[SIZE / 4];

uint32_t *room(void) { return space; }
size_t room_size(void) { return SIZE; }
