/* The routines that a compiler calls where the machine has no instruction: they count who calls them. */
#include <stdint.h>

extern uint32_t multiplied[], divided[]; /* by question; the last of each counts the calls between questions */
uint64_t quotient(uint64_t a, uint64_t b, uint64_t *rest);
