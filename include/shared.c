/* Compiled into libmscp.so by ./install: what mscp.h has as inline functions are calls of that library too, for languages
 * that don't read the header. */
#define MSCP_INLINE
#include "mscp.h"
