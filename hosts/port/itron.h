/*
 * The calls of µITRON 4.0 that the port in port.c gives to tasks and handlers. Parameters, packets and return values are those of the standard, as the
 * Renesas pages have them; where they differ, document 01 decides. So number 0 is refused with E_ID, there is no TSK_SELF, and what a handler may not call
 * goes by the call's name. docs/calls has each call's checks in their order.
 *
 * A pointer to a packet, to a task's function or for results that is null is answered E_PAR before the kernel is asked: its calls have no pointers.
 */
#ifndef ITRON_H
#define ITRON_H

#include "linguastel.h"

/* ---- Types and numbers ---- */

typedef int32_t ER;
typedef int32_t ID;
typedef int32_t PRI;
typedef int32_t TMO; /* in ms; n waits at least n ms and less than n + 1 */
typedef uint32_t ATR;
typedef uint32_t STAT;
typedef uint32_t UINT;
typedef void *VP;
typedef int32_t VP_INT; /* 32 bits, as a data queue's words. A pointer fits where it has 32 bits too; elsewhere the compiler warns of the cast. */

enum {
    E_OK = LINGUASTEL_E_OK,
    E_SYS = LINGUASTEL_E_SYS,
    E_PAR = LINGUASTEL_E_PAR,
    E_ID = LINGUASTEL_E_ID,
    E_CTX = LINGUASTEL_E_CTX,
    E_ILUSE = LINGUASTEL_E_ILUSE,
    E_NOMEM = -33, /* of port_task alone */
    E_OBJ = LINGUASTEL_E_OBJ,
    E_NOEXS = LINGUASTEL_E_NOEXS,
    E_QOVR = LINGUASTEL_E_QOVR,
    E_RLWAI = LINGUASTEL_E_RLWAI,
    E_TMOUT = LINGUASTEL_E_TMOUT,
    E_DLT = LINGUASTEL_E_DLT
};

enum { TMO_POL = LINGUASTEL_TMO_POL, TMO_FEVR = LINGUASTEL_TMO_FEVR, TSK_NONE = LINGUASTEL_TSK_NONE };

enum { TA_TFIFO = LINGUASTEL_TA_TFIFO, TA_TPRI = LINGUASTEL_TA_TPRI, TA_MFIFO = 0, TA_MPRI = LINGUASTEL_TA_MPRI };

/* A task's state. The kernel doesn't tell ready from running: the task that asks runs, each other that could is ready. */
enum { TTS_RUN = 0x01, TTS_RDY = 0x02, TTS_WAI = 0x04, TTS_SUS = 0x08, TTS_WAS = TTS_WAI | TTS_SUS };

/* What a task waits for. */
enum { TTW_SDTQ = 0x10, TTW_RDTQ = 0x20, TTW_MBX = 0x40 };

/* ---- Packets ---- */

typedef struct t_cdtq {
    ATR dtqatr;
    UINT dtqcnt;
    VP dtq; /* not read: the words are kept in the record */
} T_CDTQ;

typedef struct t_rdtq {
    ID stskid;
    ID rtskid;
    UINT sdtqcnt;
} T_RDTQ;

typedef struct t_msg {
    VP msghead; /* for kernels that chain messages by their addresses; this one neither reads nor writes it */
} T_MSG;

typedef struct t_msg_pri {
    T_MSG msgque;
    PRI msgpri;
} T_MSG_PRI;

typedef struct t_cmbx {
    ATR mbxatr;
    PRI maxmpri;
    VP mprihd; /* not read, likewise */
} T_CMBX;

typedef struct t_rmbx {
    ID wtskid;
    T_MSG *pk_msg;
} T_RMBX;

typedef struct t_rtst {
    STAT tskstat;
    STAT tskwait; /* 0 where the task doesn't wait */
} T_RTST;

/* ---- What the port adds ---- */

/*
 * Defines a task and starts its thread: the standard's cre_tsk with TA_ACT. The codes are those of define_task, docs/calls/tasks.md; E_SYS too where the
 * library that is linked isn't the header's; and E_NOMEM where the system gives no thread. The task is defined then all the same, and nothing runs for it: the
 * kernel has no call that takes a definition back. For the same reason a task is still defined when its function has returned.
 */
ER port_task(ID tskid, PRI itskpri, void (*task)(VP exinf), VP exinf);

/*
 * The messages: count blocks of size bytes each, in a row, each beginning with a T_MSG_PRI. Made at start-up, once: E_OBJ after that. E_PAR: null, more than
 * 64 blocks, or blocks that have no room for a T_MSG_PRI or don't stand where one can.
 */
ER port_messages(VP blocks, size_t size, UINT count);

/* One tick, from a timer's handler or thread. */
ER isig_tim(void);

/* ---- The calls; those with i in front are a handler's ---- */

ER cre_dtq(ID dtqid, const T_CDTQ *pk_cdtq);
ER del_dtq(ID dtqid);
ER snd_dtq(ID dtqid, VP_INT data);
ER psnd_dtq(ID dtqid, VP_INT data);
ER ipsnd_dtq(ID dtqid, VP_INT data);
ER tsnd_dtq(ID dtqid, VP_INT data, TMO tmout);
ER fsnd_dtq(ID dtqid, VP_INT data);
ER ifsnd_dtq(ID dtqid, VP_INT data);
ER rcv_dtq(ID dtqid, VP_INT *p_data);
ER prcv_dtq(ID dtqid, VP_INT *p_data);
ER iprcv_dtq(ID dtqid, VP_INT *p_data);
ER trcv_dtq(ID dtqid, VP_INT *p_data, TMO tmout);
ER ref_dtq(ID dtqid, T_RDTQ *pk_rdtq);
ER iref_dtq(ID dtqid, T_RDTQ *pk_rdtq);

/* A message that isn't one of port_messages is refused like a message number out of range: E_PAR in step 4. */
ER cre_mbx(ID mbxid, const T_CMBX *pk_cmbx);
ER del_mbx(ID mbxid);
ER snd_mbx(ID mbxid, T_MSG *pk_msg);
ER isnd_mbx(ID mbxid, T_MSG *pk_msg);
ER rcv_mbx(ID mbxid, T_MSG **ppk_msg);
ER prcv_mbx(ID mbxid, T_MSG **ppk_msg);
ER iprcv_mbx(ID mbxid, T_MSG **ppk_msg);
ER trcv_mbx(ID mbxid, T_MSG **ppk_msg, TMO tmout);
ER ref_mbx(ID mbxid, T_RMBX *pk_rmbx);
ER iref_mbx(ID mbxid, T_RMBX *pk_rmbx);

ER rel_wai(ID tskid);
ER irel_wai(ID tskid);
ER sus_tsk(ID tskid);
ER isus_tsk(ID tskid);
ER rsm_tsk(ID tskid);
ER irsm_tsk(ID tskid);
ER ref_tst(ID tskid, T_RTST *pk_rtst);
ER iref_tst(ID tskid, T_RTST *pk_rtst);

#endif
