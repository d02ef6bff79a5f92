/*
 * The kernel's numbers, in three places: clothbadger.h, the proved code and the kernel's own headers. All are the same.
 * c/run makes the two lists: header.inc has NUMBER(name) for each of the kernel's numbers in clothbadger.h,
 * constants.inc NUMBER(name, value) for each of crates/constants.
 */
#include "clothbadger.h"

enum {
#define NUMBER(name) CLOTHBADGER_##name = name,
#include "header.inc"
#undef NUMBER
};

#include "undefine.inc"

#include <errno.h>
#include <linux/cec.h>

#define NUMBER(name) _Static_assert(CLOTHBADGER_##name == name, #name " of clothbadger.h");
#include "header.inc"
#undef NUMBER

#define NUMBER(name, value) _Static_assert(name == value, #name " of crates/constants");
#include "constants.inc"
#undef NUMBER
