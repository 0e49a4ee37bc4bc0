/* pm1_identity, which pm1.h declares. Installed libraries have it in them. */
#include "pm1.h"

/* The SHA-256 of the proved archive, as a string. `make` tells it. */
#ifndef PM1_ARCHIVE_SHA256
#define PM1_ARCHIVE_SHA256 ""
#endif

/* One string, so that a tool which does not load a library finds it among its octets too. */
static const char identity[] = "libpm1.a sha256 " PM1_ARCHIVE_SHA256;

const char *pm1_identity(void) { return identity + sizeof "libpm1.a sha256 " - 1; }
