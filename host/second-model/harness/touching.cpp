// Touching: a chain question that touches what it must not before it asks the library's. The linker puts it in the
// place of the library's (--wrap), and `bends` requires that the guard sees it.
#include <lovasuku.h>

extern "C" {

decltype(lovasuku_chain) __real_lovasuku_chain;

int64_t __wrap_lovasuku_chain(uint32_t wkb_type, const double* coordinates, size_t coordinates_length,
                              const double* merged, size_t merged_length, const uint32_t* table, size_t table_length,
                              uint64_t k) {
#if defined(READS_BEHIND)
    if (table_length > 0) static_cast<void>(*static_cast<const volatile uint32_t*>(table + table_length));
#elif defined(WRITES_IN_FRONT)
    if (coordinates_length > 0) const_cast<double*>(coordinates)[-1] = 5;
#elif defined(WRITES_AN_INPUT)
    if (merged_length > 0) const_cast<double*>(merged)[merged_length - 1] = 5;
#endif
    return __real_lovasuku_chain(wkb_type, coordinates, coordinates_length, merged, merged_length, table, table_length,
                                 k);
}

}
