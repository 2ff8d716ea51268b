#include "ccollect.h"
#include <stdio.h>

int main(void) {
    const cc_object nothing = {0, 0, 0, CC_NOTHING};
    cc_object element = nothing, reflector = nothing, listener = nothing;
    cc_collector c = CC_COLLECTOR_CLOSED;
    cc_told told;
    cc_status stop = cc_open(&c, 1000, 1000);  /* it makes up to 1000 objects of each kind */
    stop |= cc_new_native(&c, 0, 1, &element); /* native root 0 holds an element with one slot */
    stop |= cc_new_plain(&c, 0, 1, &listener); /* script root 0 holds its listener */
    stop |= cc_wrap(&c, &element, &reflector); /* what script has of the element */
    stop |= cc_store(&c, &listener, 0, &reflector);
    stop |= cc_store(&c, &element, 0, &listener); /* a cycle through both heaps */
    stop |= cc_set_native_root(&c, 0, &nothing);
    stop |= cc_set_script_root(&c, 0, &nothing);
    stop |= cc_settle(&c);
    while (cc_next_told(&c, &told) == CC_OK)
        printf("%s %c%u\n", told.what == CC_FREED ? "freed" : "unlinked", " #@~"[told.kind], told.number);
    cc_close(&c);
    return stop != CC_OK;
}
