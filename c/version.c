/* The version of libetherparse: the one call that no crate exports and no proof covers. */
#include "etherparse.h"

const char *ep_version(void) { return EP_VERSION; }
