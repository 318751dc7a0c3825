/* The calls of itron.h, each a call of the kernel with its parameters in their fields. Nothing here is about threads: another scheduler leaves it as it is. */
#include "port.h"

/* ---- Messages ---- */

/*
 * The kernel's messages are the numbers 1 to 64, the standard's are addresses. Here message n is block n - 1 of an array, as the blocks of a fixed-sized
 * memory pool stand: number and address follow from each other, and the port has no table to keep in step with the kernel's queues. With addresses from
 * anywhere it would have to give numbers out and take them back, also of the messages that del_mbx frees without saying which.
 */
static struct { char *blocks; size_t size; UINT count; } pool = { .size = 1 };

ER port_messages(VP blocks, size_t size, UINT count)
{
    size_t align = _Alignof(T_MSG_PRI);
    if (blocks == NULL || (uintptr_t)blocks % align != 0 || size < sizeof(T_MSG_PRI) || size % align != 0 || count > LINGUASTEL_MESSAGES) {
        return E_PAR;
    }
    if (pool.blocks != NULL) {
        return E_OBJ;
    }
    pool.blocks = blocks;
    pool.size = size;
    pool.count = count;
    return E_OK;
}

/* 0 for an address that is no message's, null among them. One below the first block becomes a number far above the last. */
static uint32_t number_of(const T_MSG *message)
{
    uintptr_t place = (uintptr_t)message - (uintptr_t)pool.blocks;
    return place % pool.size == 0 && place / pool.size < pool.count ? (uint32_t)(place / pool.size) + 1 : 0;
}

static T_MSG *message_of(uint32_t number)
{
    return number != 0 ? (T_MSG *)(void *)(pool.blocks + (number - 1) * pool.size) : NULL;
}

/* ---- The calls by their parameters ---- */

/* A task, data queue or mailbox, and nothing else. */
static LinguastelAnswer name(ID caller, uint32_t number, ID object)
{
    return port_service(caller, (LinguastelCall){ .number = number, .object = (uint32_t)object });
}

static ER create(uint32_t number, ID object, ATR attribute, uint32_t value)
{
    return port_service(port_self(), (LinguastelCall){ .number = number, .object = (uint32_t)object, .attribute = attribute, .value = value }).code;
}

static ER send_word(ID caller, uint32_t number, ID dtqid, VP_INT data, TMO tmout)
{
    return port_service(caller, (LinguastelCall){ .number = number, .object = (uint32_t)dtqid, .value = (uint32_t)data, .tmout = tmout }).code;
}

static ER receive_word(ID caller, uint32_t number, ID dtqid, VP_INT *p_data, TMO tmout)
{
    if (p_data == NULL) {
        return E_PAR;
    }
    LinguastelAnswer answer = port_service(caller, (LinguastelCall){ .number = number, .object = (uint32_t)dtqid, .tmout = tmout });
    if (linguastel_is_ok(answer)) {
        *p_data = (VP_INT)answer.a;
    }
    return answer.code;
}

/* Every block has a priority, so it is read for every mailbox; the kernel ignores it where messages go by arrival. */
static ER send_message(ID caller, ID mbxid, const T_MSG *pk_msg)
{
    uint32_t message = number_of(pk_msg);
    uint32_t priority = message != 0 ? (uint32_t)((const T_MSG_PRI *)pk_msg)->msgpri : 0;
    return port_service(caller, (LinguastelCall){ .number = LINGUASTEL_SND_MBX, .object = (uint32_t)mbxid, .value = message, .attribute = priority }).code;
}

static ER receive_message(ID caller, uint32_t number, ID mbxid, T_MSG **ppk_msg, TMO tmout)
{
    if (ppk_msg == NULL) {
        return E_PAR;
    }
    LinguastelAnswer answer = port_service(caller, (LinguastelCall){ .number = number, .object = (uint32_t)mbxid, .tmout = tmout });
    if (linguastel_is_ok(answer)) {
        *ppk_msg = message_of(answer.a);
    }
    return answer.code;
}

static ER reference_queue(ID caller, ID dtqid, T_RDTQ *pk_rdtq)
{
    if (pk_rdtq == NULL) {
        return E_PAR;
    }
    LinguastelAnswer answer = name(caller, LINGUASTEL_REF_DTQ, dtqid);
    LinguastelRdtq state = linguastel_rdtq(answer);
    if (linguastel_is_ok(answer)) {
        *pk_rdtq = (T_RDTQ){ .stskid = (ID)state.stskid, .rtskid = (ID)state.rtskid, .sdtqcnt = state.sdtqcnt };
    }
    return answer.code;
}

static ER reference_mailbox(ID caller, ID mbxid, T_RMBX *pk_rmbx)
{
    if (pk_rmbx == NULL) {
        return E_PAR;
    }
    LinguastelAnswer answer = name(caller, LINGUASTEL_REF_MBX, mbxid);
    LinguastelRmbx state = linguastel_rmbx(answer);
    if (linguastel_is_ok(answer)) {
        *pk_rmbx = (T_RMBX){ .wtskid = (ID)state.wtskid, .pk_msg = message_of(state.pk_msg) };
    }
    return answer.code;
}

static ER reference_task(ID caller, ID tskid, T_RTST *pk_rtst)
{
    static const STAT waits[] = { [LINGUASTEL_SENDING] = TTW_SDTQ, [LINGUASTEL_RECEIVING] = TTW_RDTQ, [LINGUASTEL_AT_MAILBOX] = TTW_MBX };
    if (pk_rtst == NULL) {
        return E_PAR;
    }
    LinguastelAnswer answer = name(caller, LINGUASTEL_LOOK, tskid);
    LinguastelLooked state = linguastel_looked(answer);
    if (linguastel_is_ok(answer)) {
        STAT stopped = (state.tskwait != LINGUASTEL_NO_WAIT ? TTS_WAI : 0u) | (state.suspended ? TTS_SUS : 0u);
        STAT able = tskid == caller ? TTS_RUN : TTS_RDY;
        *pk_rtst = (T_RTST){ .tskstat = stopped != 0 ? stopped : able, .tskwait = waits[state.tskwait] };
    }
    return answer.code;
}

/* ---- The calls by name ---- */

ER cre_dtq(ID dtqid, const T_CDTQ *pk_cdtq) { return pk_cdtq ? create(LINGUASTEL_CRE_DTQ, dtqid, pk_cdtq->dtqatr, pk_cdtq->dtqcnt) : E_PAR; }
ER del_dtq(ID dtqid) { return name(port_self(), LINGUASTEL_DEL_DTQ, dtqid).code; }
ER snd_dtq(ID dtqid, VP_INT data) { return send_word(port_self(), LINGUASTEL_SND_DTQ, dtqid, data, 0); }
ER psnd_dtq(ID dtqid, VP_INT data) { return send_word(port_self(), LINGUASTEL_PSND_DTQ, dtqid, data, 0); }
ER ipsnd_dtq(ID dtqid, VP_INT data) { return send_word(PORT_HANDLER, LINGUASTEL_PSND_DTQ, dtqid, data, 0); }
ER tsnd_dtq(ID dtqid, VP_INT data, TMO tmout) { return send_word(port_self(), LINGUASTEL_TSND_DTQ, dtqid, data, tmout); }
ER fsnd_dtq(ID dtqid, VP_INT data) { return send_word(port_self(), LINGUASTEL_FSND_DTQ, dtqid, data, 0); }
ER ifsnd_dtq(ID dtqid, VP_INT data) { return send_word(PORT_HANDLER, LINGUASTEL_FSND_DTQ, dtqid, data, 0); }
ER rcv_dtq(ID dtqid, VP_INT *p_data) { return receive_word(port_self(), LINGUASTEL_RCV_DTQ, dtqid, p_data, 0); }
ER prcv_dtq(ID dtqid, VP_INT *p_data) { return receive_word(port_self(), LINGUASTEL_PRCV_DTQ, dtqid, p_data, 0); }
ER iprcv_dtq(ID dtqid, VP_INT *p_data) { return receive_word(PORT_HANDLER, LINGUASTEL_PRCV_DTQ, dtqid, p_data, 0); }
ER trcv_dtq(ID dtqid, VP_INT *p_data, TMO tmout) { return receive_word(port_self(), LINGUASTEL_TRCV_DTQ, dtqid, p_data, tmout); }
ER ref_dtq(ID dtqid, T_RDTQ *pk_rdtq) { return reference_queue(port_self(), dtqid, pk_rdtq); }
ER iref_dtq(ID dtqid, T_RDTQ *pk_rdtq) { return reference_queue(PORT_HANDLER, dtqid, pk_rdtq); }

ER cre_mbx(ID mbxid, const T_CMBX *pk_cmbx) { return pk_cmbx ? create(LINGUASTEL_CRE_MBX, mbxid, pk_cmbx->mbxatr, (uint32_t)pk_cmbx->maxmpri) : E_PAR; }
ER del_mbx(ID mbxid) { return name(port_self(), LINGUASTEL_DEL_MBX, mbxid).code; }
ER snd_mbx(ID mbxid, T_MSG *pk_msg) { return send_message(port_self(), mbxid, pk_msg); }
ER isnd_mbx(ID mbxid, T_MSG *pk_msg) { return send_message(PORT_HANDLER, mbxid, pk_msg); }
ER rcv_mbx(ID mbxid, T_MSG **ppk_msg) { return receive_message(port_self(), LINGUASTEL_RCV_MBX, mbxid, ppk_msg, 0); }
ER prcv_mbx(ID mbxid, T_MSG **ppk_msg) { return receive_message(port_self(), LINGUASTEL_PRCV_MBX, mbxid, ppk_msg, 0); }
ER iprcv_mbx(ID mbxid, T_MSG **ppk_msg) { return receive_message(PORT_HANDLER, LINGUASTEL_PRCV_MBX, mbxid, ppk_msg, 0); }
ER trcv_mbx(ID mbxid, T_MSG **ppk_msg, TMO tmout) { return receive_message(port_self(), LINGUASTEL_TRCV_MBX, mbxid, ppk_msg, tmout); }
ER ref_mbx(ID mbxid, T_RMBX *pk_rmbx) { return reference_mailbox(port_self(), mbxid, pk_rmbx); }
ER iref_mbx(ID mbxid, T_RMBX *pk_rmbx) { return reference_mailbox(PORT_HANDLER, mbxid, pk_rmbx); }

ER rel_wai(ID tskid) { return name(port_self(), LINGUASTEL_REL_WAI, tskid).code; }
ER irel_wai(ID tskid) { return name(PORT_HANDLER, LINGUASTEL_REL_WAI, tskid).code; }
ER sus_tsk(ID tskid) { return name(port_self(), LINGUASTEL_SUS_TSK, tskid).code; }
ER isus_tsk(ID tskid) { return name(PORT_HANDLER, LINGUASTEL_SUS_TSK, tskid).code; }
ER rsm_tsk(ID tskid) { return name(port_self(), LINGUASTEL_RSM_TSK, tskid).code; }
ER irsm_tsk(ID tskid) { return name(PORT_HANDLER, LINGUASTEL_RSM_TSK, tskid).code; }
ER ref_tst(ID tskid, T_RTST *pk_rtst) { return reference_task(port_self(), tskid, pk_rtst); }
ER iref_tst(ID tskid, T_RTST *pk_rtst) { return reference_task(PORT_HANDLER, tskid, pk_rtst); }
