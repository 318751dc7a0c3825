/* Between calls.c, which has the calls of itron.h, and port.c, which has the scheduler. */
#ifndef PORT_H
#define PORT_H

#include "itron.h"

/* The caller of the i-forms, and of every call in a thread that is no task: a handler, a timer, start-up. The kernel refuses it what may wait, with E_CTX. */
enum { PORT_HANDLER = 0 };

/* The task that runs here, or PORT_HANDLER. */
ID port_self(void);

/* Makes a call, or a tick, for this caller, and comes back when the caller can run. The answer is finished: of a call that waited, how the wait ended. */
LinguastelAnswer port_service(ID caller, LinguastelCall call);

#endif
