/* library.c - what include/gmap.h has inline, as functions that a program in another language can call. gmap/kernel.py makes one
 * shared library of this and the kernel's archive, so that no tool has the header's numbers a second time. */
#include "gmap.h"

uint32_t tool_record(void) { return GMAP_RECORD; }
uint32_t tool_store(void) { return GMAP_STORE; }
uint32_t tool_max_file(void) { return GMAP_MAX_FILE; }
uint32_t tool_max_scheme(void) { return GMAP_MAX_SCHEME; }
uint32_t tool_number(uint64_t answer) { return gmap_number(answer); }
uint32_t tool_node(uint64_t answer) { return gmap_node(answer); }
uint32_t tool_i(uint64_t answer) { return gmap_i(answer); }
uint32_t tool_j(uint64_t answer) { return gmap_j(answer); }
uint32_t tool_orbit(uint64_t answer) { return gmap_orbit(answer); }
uint32_t tool_added(uint64_t answer) { return gmap_added(answer); }
uint32_t tool_deleted(uint64_t answer) { return gmap_deleted(answer); }
uint64_t tool_length(uint64_t answer) { return gmap_length(answer); }
const char *tool_words(uint32_t number) { return gmap_words(number); }
