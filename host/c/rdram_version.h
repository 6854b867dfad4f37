/*
 * rdram_version.h: the version of headers and archive. Part of rdram.h, which includes it.
 */
#ifndef RDRAM_VERSION_H
#define RDRAM_VERSION_H

#include "rdram_attributes.h"
#include <stdint.h>

#ifdef __cplusplus
extern "C" {
#endif

/*
 * Semantic versioning; docs/DECISIONS.md, "Boards", says what counts as a break. Before 1.0.0 a new minor number may
 * break, so headers, archive and kept states are of one minor version.
 */
#define RDRAM_VERSION_MAJOR 0
#define RDRAM_VERSION_MINOR 1
#define RDRAM_VERSION_PATCH 0
#define RDRAM_VERSION_TEXT "0.1.0"

/* The three as one number, to compare: 65536 * major + 256 * minor + patch. */
#define RDRAM_VERSION (65536 * RDRAM_VERSION_MAJOR + 256 * RDRAM_VERSION_MINOR + RDRAM_VERSION_PATCH)

/*
 * The version of the archive that is linked, as the same number. Where it is not RDRAM_VERSION the program was compiled
 * with headers of another version: if (rdram_version() != RDRAM_VERSION) stop, and compile it again.
 */
uint32_t rdram_version(void) RDRAM_ANSWER;

#ifdef __cplusplus
}
#endif

#endif
