/* What heapguard.h says by itself, with no core: handles of four numbers, a bank's handles of
 * replies, and statuses. */
#include "heapguard.h"

#include <stdio.h>

static int failed;

static void so(int is, const char *what)
{
    if (is) return;
    failed++;
    printf("header: not so: %s\n", what);
}

int main(void)
{
    hg_handle last = hg_handle_of(63, 15, 511, 7);
    so(hg_segment_of(last) == 63 && hg_page_of(last) == 15, "segment and page come back");
    so(hg_index_of(last) == 511 && hg_generation_of(last) == 7, "index and generation come back");
    so(hg_handle_of(0, 0, 0, 1) == 1, "the first life of the first place");
    so(hg_handle_of(64, 0, 0, 1) == 0, "no segment 64");
    so(hg_handle_of(0, 16, 0, 1) == 0, "no page 16");
    so(hg_handle_of(0, 0, 512, 1) == 0, "no index 512");
    so(hg_handle_of(524288, 0, 0, 1) == 0, "a segment doesn't wrap");
    so(hg_handle_of(0, 0, 0, 0) == 0, "no generation 0");
    hg_reply made = {HG_BLOCK, 0, 16383, last};
    so(hg_bank_handle_of(made).core == 16383, "the core of a bank's block");
    so(hg_bank_handle_of(made).handle == last, "and its handle there");
    for (unsigned status = 0; status < 80; status++) {
        made.status = (uint16_t)status;
        hg_bank_handle block = hg_bank_handle_of(made);
        if (status != HG_BLOCK) so(block.core == 0 && block.handle == 0, "of no other reply");
    }
    so(sizeof(hg_bank_handle) == 16 && sizeof(hg_bank) == 16, "16 bytes");
    for (unsigned status = 0; status < 80; status++)
        so(hg_is_served(status) == (status != 0 && status < HG_TOO_LARGE), "what is served");
    so(HG_VERSION_MAJOR == 0 && HG_VERSION == 56, "HG_VERSION is a status");
    so(HG_VERSION_NUMBER / 65536 == HG_VERSION_MAJOR, "the number of the release");
#if HG_RELEASE < HG_VERSION_MAJOR * 65536u + HG_VERSION_MINOR * 256u
    so(0, "the release is a number for #if");
#endif
    so(HG_RELEASE == HG_VERSION_NUMBER, "and the same");
    return failed != 0;
}
