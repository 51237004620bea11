/* The sizes, alignments and places that src/raw.rs holds its structs to, asked of include/ribsaddle.h itself. Compiled, never run. */
#include "../../../include/ribsaddle.h"

#define STRUCT(name, size, align) _Static_assert(sizeof(name) == size && _Alignof(name) == align, #name)
STRUCT(ribsaddle_header, 20, 4);
STRUCT(ribsaddle_packet, 56, 8);
STRUCT(ribsaddle_sent, 26720, 8);
STRUCT(ribsaddle_recv, 1044, 4);
_Static_assert(offsetof(ribsaddle_sent, kept) == 12 && offsetof(ribsaddle_sent, numbers) == 16 && offsetof(ribsaddle_sent, samples) == 96, "kept, numbers, samples");
_Static_assert(offsetof(ribsaddle_sent, times) == 16480 && offsetof(ribsaddle_sent, sizes) == 20576, "times, sizes");
_Static_assert(offsetof(ribsaddle_sent, marks) == 24672 && offsetof(ribsaddle_recv, waiting) == 20, "marks, waiting");
