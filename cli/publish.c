#include "publish.h"

#include "guard.h"
#include "watch.h"

static void publish(void *with)
{
    struct publishing *p = with;
    p->answer =
        buttresk_publish(p->source->octets, p->source->size, p->room->octets, p->room->size);
}

bool publish_watched(struct publishing *p)
{
    struct watch watch;
    watch_start(&watch, p->source, "copying", false);
    watch_also(&watch, p->room->octets, p->room->size);
    bool ended = guarded(publish, p, &p->fault);
    watch_stop(&watch);
    return ended;
}
