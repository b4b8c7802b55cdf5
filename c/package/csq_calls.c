/* What an installed library has beside the archives that it is made of: the calls that csq.h writes
 * as symbols, for those who bind by name, and csq_build. c/package.bash compiles it, with the text
 * of csq_build as CSQ_BUILD. */
#define CSQ_INLINE extern
#define CSQ_NO_TSAN
#include "csq.h"

const char *csq_build(void) {
    return CSQ_BUILD;
}
