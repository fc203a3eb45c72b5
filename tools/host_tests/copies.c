/* copies close | copies ask: what no call can see. A core is copied and closed; then the copy is
 * closed too, or asked. A memory checker has to report it, which is what is tested.
 */
#include "heapguard.h"
#include <string.h>

static const char POLICY[] = "version = 1\nworkers = 1\ntenant = []\narena = []\n";

int main(int words, char **word)
{
    hg_core core = HG_CORE_INIT, copy;
    if (words != 2) return 2;
    if (hg_open(&core, POLICY, sizeof POLICY - 1, NULL, 0).status != HG_DONE) return 3;
    memcpy(&copy, &core, sizeof copy);
    if (hg_close(&core).status != HG_DONE) return 4;
    return strcmp(word[1], "ask") == 0 ? hg_workers(&copy).status != HG_VALUE
                                       : hg_close(&copy).status != HG_DONE;
}
