/* hlr.h has each field where the library has it, and the same codes: layout.h is what layout.awk finds in the library's
 * sources. It is compiled, and not run. */
#include "hlr.h"
#include <stddef.h>

/* what a handle keeps is a struct of one field, the address */
#define kept address

#define FIELD(of, field, at, size) \
    _Static_assert(offsetof(of, field) == at && sizeof(((of *)0)->field) == size, #of "." #field " lies elsewhere");
#define SIZE(of, size, align) \
    _Static_assert(sizeof(of) == size && _Alignof(of) == align, #of " has another size");
#define IS(name, number) _Static_assert(HLR_##name == number, "HLR_" #name " is another number");

#include "layout.h"

/* The constants that follow from these. */
_Static_assert(HLR_MAX_REGIONS == HLR_MAX_PARTS + HLR_MAX_PIECES, "a region is a part or a piece");
_Static_assert(HLR_HOUR_CELL == 0 && HLR_AREA_CELL == HLR_HOURS, "areas come behind the hours");
_Static_assert(HLR_ZONE_CELL == HLR_AREA_CELL + HLR_AREAS && HLR_CELLS == HLR_ZONE_CELL + HLR_ZONES, "zones come last");
_Static_assert(HLR_AREAS * HLR_AREA_WIDTH == UINT64_C(1) << 32, "areas share the locations");
