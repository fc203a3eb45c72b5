/* loop: behind the second block of C in docs/EMBEDDING.md. One worker takes blocks until there is no
 * segment left, another frees them, the first takes them in, and all of it once more.
 */
#include <stdio.h>

static const char POLICY[] =
    "version = 1\nworkers = 2\narena = [ {name = \"main\", segments = 2} ]\n"
    "tenant = [ {name = \"alice\", limit = 1048576} ]\n";

enum { MOST = 64 };

int main(void)
{
    hg_core core = HG_CORE_INIT;
    if (hg_open(&core, POLICY, sizeof POLICY - 1, NULL, 0).status != HG_DONE) return 1;
    unsigned failed = 0;
    for (unsigned round = 0; round < 3; round++) {
        hg_handle block[MOST];
        unsigned many = 0;
        while (many < MOST && (block[many] = get_block(&core, 0, 0, 0, 4096)) != 0) many++;
        failed += many != 32; /* sixteen pages in each of two segments */
        for (unsigned at = 0; at < many; at++)
            failed += free_block(&core, at % 2, 0, block[at]).status
                != (at % 2 == 0 ? HG_DONE : HG_PARTED);
        failed += hg_charge(&core, 0, 0).value != UINT64_C(4096) * 16;
        failed += tidy(&core, 0).status != HG_PAGES;
        failed += hg_charge(&core, 0, 0).value != 0;
    }
    failed += hg_close(&core).status != HG_DONE;
    printf("loop: %u of it isn't so\n", failed);
    return failed != 0;
}
