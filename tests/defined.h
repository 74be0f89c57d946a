/* The bytes between a record's fields may have no value after an accepted call, but one that is refused has to keep them. For valgrind,
 * which would complain of the comparison, what is compared counts as written. */
#ifndef DEFINED_H
#define DEFINED_H
#if defined(__has_include)
#if __has_include(<valgrind/memcheck.h>)
#include <valgrind/memcheck.h>
#endif
#endif
#ifndef VALGRIND_MAKE_MEM_DEFINED
#define VALGRIND_MAKE_MEM_DEFINED(at, n) ((void)(at), (void)(n))
#endif
#endif
