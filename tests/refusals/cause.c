/* The C face's causes, for a caller that cannot include the header. */
#include "chirdaluko.h"

const char *cause_in_c(uint32_t number);

const char *cause_in_c(uint32_t number) {
    return eit_cause(number);
}
