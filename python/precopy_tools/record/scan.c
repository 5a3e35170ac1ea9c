/* A look at a process, in machine code: which of some pages were written since the last one, by calls of PAGEMAP_SCAN.
 * scans.py beside it says which pages are of one call; without this file's library it makes the calls itself. */

#include <errno.h>
#include <stddef.h>
#include <stdint.h>
#include <sys/ioctl.h>

#define SCAN 0xC0606610UL
#define PAGE 4096
/* The most pages of a group. */
#define PART 32

enum { PROTECTING = 1, ONLY_WATCHED = 2 };
enum { WRITTEN = 1 << 1, PRESENT = 1 << 3, SWAPPED = 1 << 4 };

/* The kernel's struct page_region. */
struct region {
    uint64_t begin, end, categories;
};

/* The kernel's struct pm_scan_arg. */
struct request {
    uint64_t size, flags, begin, end, walked_to, regions, region_count, most_pages;
    uint64_t inverted, wanted, any_of, told;
};

/* Whether a page was written; negative if the call fails. With PROTECTING it is protected again, in the same step. */
static int is_written(int pagemap, uint64_t place, uint64_t protecting) {
    struct region region;
    struct request request = {
        .size = sizeof request,
        .flags = protecting | ONLY_WATCHED,
        .begin = place,
        .end = place + PAGE,
        .regions = (uintptr_t)&region,
        .region_count = 1,
        .wanted = WRITTEN,
        .told = WRITTEN,
    };
    return ioctl(pagemap, SCAN, &request);
}

/* Which pages from `first` to `last` are protected, as regions in order. Nothing changes. Negative if it fails. */
static int survey(int pagemap, uint64_t first, uint64_t last, struct region *regions) {
    struct request request = {
        .size = sizeof request,
        .flags = ONLY_WATCHED,
        .begin = first,
        .end = last + PAGE,
        .regions = (uintptr_t)regions,
        .region_count = PART,
        .inverted = WRITTEN,
        .wanted = WRITTEN,
        .any_of = PRESENT | SWAPPED,
    };
    return ioctl(pagemap, SCAN, &request);
}

/* Looks once at pages, whose places are in order. Group n has the pages from ends[n - 1], or 0, up to ends[n], and at
 * most PART of them. Writes the number of each page that was written into `written`, in order, and returns how many
 * these are. A call that fails ends the look: then `*fault` is the cause, else 0. */
size_t precopy_look(int pagemap, const uint64_t *places, const uint32_t *ends, size_t groups, uint32_t *written,
                    int *fault) {
    struct region regions[PART];
    size_t known = 0;
    uint32_t page = 0;
    for (size_t group = 0; group < groups; group++) {
        int surveyed = 0, at = 0;
        if (ends[group] - page > 1) surveyed = survey(pagemap, places[page], places[ends[group] - 1], regions);
        if (surveyed < 0) goto failed;
        for (; page < ends[group]; page++) {
            while (at < surveyed && regions[at].end <= places[page]) at++;
            if (at < surveyed && regions[at].begin <= places[page]) continue;
            /* For a call that protects KVM drops the page from the guest's tables, so only written ones have it. */
            int answer = is_written(pagemap, places[page], 0);
            if (answer > 0) answer = is_written(pagemap, places[page], PROTECTING);
            if (answer < 0) goto failed;
            if (answer > 0) written[known++] = page;
        }
    }
    *fault = 0;
    return known;
failed:
    *fault = errno;
    return known;
}
