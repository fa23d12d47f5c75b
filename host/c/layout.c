/* The structs of rc4000.h have the layout that the library and the Rust
 * wrapper count on. Nothing here runs: it compiles or it does not. */
#include "rc4000.h"

#define AT(type, field, offset) \
    _Static_assert(offsetof(type, field) == (offset), #type "." #field)
#define SIZE(type, size) _Static_assert(sizeof(type) == (size), #type)

SIZE(bool, 1);
SIZE(rc4000_control, 44);
AT(rc4000_control, ic, 0);
AT(rc4000_control, ir, 4);
AT(rc4000_control, im, 8);
AT(rc4000_control, pending, 12);
AT(rc4000_control, pr, 16);
AT(rc4000_control, ex, 20);
AT(rc4000_control, monitor, 24);
AT(rc4000_control, enabled, 25);
AT(rc4000_control, reset, 26);
AT(rc4000_control, elapsed, 28);
AT(rc4000_control, period, 32);
AT(rc4000_control, phase, 36);
AT(rc4000_control, line, 40);

SIZE(rc4000_devices, 8);
AT(rc4000_devices, reader, 0);
AT(rc4000_devices, typewriter, 4);

SIZE(rc4000_result, 88);
AT(rc4000_result, control, 0);
AT(rc4000_result, outcome, 44);
AT(rc4000_result, number, 48);
AT(rc4000_result, executed, 52);
AT(rc4000_result, entries, 56);
AT(rc4000_result, devices, 60);
AT(rc4000_result, taken, 72);
AT(rc4000_result, typed, 80);

SIZE(rc4000_state, 48);
AT(rc4000_state, control, 0);
AT(rc4000_state, refusal, 44);

SIZE(rc4000_autoloaded, 64);
AT(rc4000_autoloaded, control, 0);
AT(rc4000_autoloaded, refusal, 44);
AT(rc4000_autoloaded, devices, 48);
AT(rc4000_autoloaded, taken, 56);

SIZE(rc4000_text, 24);
AT(rc4000_text, refusal, 0);
AT(rc4000_text, found, 4);
AT(rc4000_text, start, 8);
AT(rc4000_text, end, 16);

SIZE(rc4000_written, 16);
AT(rc4000_written, refusal, 0);
AT(rc4000_written, length, 8);

SIZE(rc4000_assembled, 8);
AT(rc4000_assembled, refusal, 0);
AT(rc4000_assembled, word, 4);
