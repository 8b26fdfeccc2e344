/* Has the host `two.test` have the addresses that HOST_ADDRESSES names, divided by commas, in this order. The file
   LOOK_UPS gets a byte for each time that it is looked up. It is preloaded before the C library; tests/test_addresses.py
   builds it. All other hosts are looked up as before. */
#define _GNU_SOURCE
#include <dlfcn.h>
#include <netdb.h>
#include <stdio.h>
#include <stdlib.h>
#include <string.h>

typedef int look_up(const char *, const char *, const struct addrinfo *, struct addrinfo **);

int getaddrinfo(const char *name, const char *service, const struct addrinfo *hints, struct addrinfo **found)
{
    look_up *const real = (look_up *)dlsym(RTLD_NEXT, "getaddrinfo");
    const char *const listed = getenv("HOST_ADDRESSES");
    if (!listed || !name || strcmp(name, "two.test"))
        return real(name, service, hints, found);
    FILE *const counted = fopen(getenv("LOOK_UPS"), "a");
    if (counted) {
        fputc('.', counted);
        fclose(counted);
    }
    char *const copy = strdup(listed), *rest = copy, *address;
    struct addrinfo **last = found;
    int fault = copy ? 0 : EAI_MEMORY;
    *found = 0;
    while (!fault && (address = strsep(&rest, ","))) {
        fault = real(address, service, hints, last);
        while (!fault && *last)
            last = &(*last)->ai_next;
    }
    free(copy);
    return fault;
}
