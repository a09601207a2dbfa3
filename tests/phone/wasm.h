/* What wasm.c knows beyond the phone's functions. */
#ifndef WASM_H
#define WASM_H

#include <stdint.h>

extern uint64_t wasm_depth; /* how many bytes of the module's stack the last call needed */

#endif
