/* The run of a job on its own box. */
#include "peer_run.h"

struct outcome run_job(struct job *job)
{
    struct outcome o;
    o.visit = 0;
    begin_job(job, o.box);
    run_on_box(job, &o);
    return o;
}
