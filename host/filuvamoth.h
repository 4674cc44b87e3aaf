/* filuvamoth.h: the channel subsystem of z/Architecture (SA22-7832, chapters 13 to 17), for hosts in C and C++.
 *
 * C99 or C++, on processors whose pointers have 64 bits. Link with libfiluvamoth.a or libfiluvamoth.so (-lfiluvamoth); either
 * needs malloc, realloc, free, memcpy, memmove and memset, and nothing else. docs/HOSTS.md begins with a worked example.
 *
 * The host keeps a handle, fm_machine, and the guest's main storage. It sets a machine up call by call, starts it, and from then on
 * lends storage to each call that names an event. Nothing happens between two calls: no thread, no callback, no output, no clock.
 * Devices are the host's: fm_work tells what one is asked for, fm_report hands in what it answered.
 *
 * What the library promises. Each call that names an event is one step of its definitions on what storage holds at the call, or is
 * refused, and then nothing has changed. It reads and writes only the handle, what is passed to the call, and memory of its own.
 *
 * What the host has to see to, since no proof speaks of C:
 *   - A handle is used by one call at a time. It may go from thread to thread; the lock is the host's (fm_machine).
 *   - Each pointer leads to as many elements as are said, and is aligned for them. Where the count beside it is 0 it may be null, else
 *     it is not; nor are the handle and what is told by a pointer without a count.
 *   - What is passed to one call does not overlap, and none of it overlaps the handle.
 *   - Nobody reads or stores into what is lent while the call runs: neither a CPU of the guest nor another thread.
 *   - There are 56 KiB of stack for fm_start, and 12 KiB for any other call, below the frame that makes it.
 *   - No call is made from a signal handler, or while another call on the same handle is interrupted.
 *   - The fields of fm_machine are left alone, and are zero when it is first used: `open` is 0 or 1.
 *
 * Numbers. Each call but fm_version answers an int32_t: 0 or more is an answer, less is a refusal, fm_refusal below. An instruction
 * answers its condition code. These refusals come from every call of their kind and are not named again at each:
 *   FM_CLOSED           any call but fm_version and fm_new: the handle is closed
 *   FM_AT_OTHER_STAGE   a setting after fm_start, anything else before it
 *   FM_OTHER_SIZE       an event: storage is not of the size that was started with, or has keys, but not one for each block
 *   FM_NUMBERS_USED_UP  an event: 2^62 - 1 events were accepted
 *   FM_NO_MEMORY        a setting, fm_new, fm_start, fm_line; another event only where a history is kept
 * An argument that a call does not take (FM_BAD_ARGUMENT) may be seen before the handle is.
 * Numbers of bits, bytes and codes are those of SA22-7832; bit 0 is the leftmost.
 */
#ifndef FILUVAMOTH_H
#define FILUVAMOTH_H

#include <stdbool.h>
#include <stddef.h>
#include <stdint.h>

#ifdef __cplusplus
extern "C" {
#endif

/* The number of this interface. It is the high half of what fm_version answers; the low half is the release, of which a later one
 * has all of an earlier one. A host tests (fm_version() >> 16) == FM_ABI. */
#define FM_ABI 1u
uint32_t fm_version(void);

/* ---- Refusals ------------------------------------------------------------------------------------------------------------------ */

enum fm_refusal {
    /* of the handle, the call and its arguments */
    FM_NO_MEMORY = -1,              /* malloc or realloc gave none */
    FM_CLOSED = -2,                 /* the handle is closed */
    FM_ALREADY_OPEN = -3,           /* fm_new: the handle is open */
    FM_AT_OTHER_STAGE = -4,         /* a setting after fm_start, anything else before it */
    FM_BAD_ARGUMENT = -5,           /* a number or a length that the call does not take: a CPU above 15, an ORB of other than 12 bytes */
    FM_OTHER_SIZE = -7,             /* storage or its keys are not of the size that was started with */
    FM_NUMBERS_USED_UP = -8,        /* 2^62 - 1 events were accepted */
    /* of the machine */
    FM_WIRE_FULL = -16,             /* eight signals wait already where one is to be sent: later */
    FM_NOT_SENT = -17,              /* no signal waits there */
    FM_NO_SUCH_SUBCHANNEL = -18,    /* not configured; an instruction answers condition code 3 instead */
    FM_NO_SUCH_PATH = -19,
    FM_NO_SUCH_UNIT = -20,
    FM_NOT_NOW = -21,               /* not in this state; an answer that no device may give, or that came too late */
    /* program interruptions, with which the guest's instruction ends: -0x100 less the interruption code */
    FM_PROTECTION = -0x104,
    FM_ADDRESSING = -0x105,
    FM_SPECIFICATION = -0x106,
    FM_OPERAND = -0x115,
    /* rules of configurations: -0x200 less the number of the rule that is broken; rule 1 is of scripts alone */
    FM_RULE_STORAGE_SIZE = -0x201,          /* a storage line stands once, with 10 to 1000 (hexadecimal) blocks */
    FM_RULE_CHANNEL_PATH = -0x202,          /* a channel path is given once, by an identifier of at most 255 */
    FM_RULE_UNIT_NUMBER = -0x203,           /* a unit has the next number, of at most 1023 */
    FM_RULE_UNIT_OF_SUBCHANNEL = -0x204,    /* the unit of a subchannel is known, and one other subchannel at most has it */
    FM_RULE_PATHS_OF_SUBCHANNEL = -0x205,   /* its paths are known, each given once, one to eight of them */
    FM_RULE_SHARED_UNIT = -0x206,           /* units that share are known, each given once and in one group */
    FM_RULE_SUBCHANNEL_NAME = -0x207,       /* the next of its set, of at most 255; the device number at most 65535 */
    FM_RULE_SETS = -0x208,                  /* said once, before any subchannel, 1 to 4 */
    /* rules of the lines of a script: -0x300 less the number of the rule that is broken; fm_line needs three of them */
    FM_LINE_UNKNOWN_WORD = -0x301,          /* the first word is of no event */
    FM_LINE_WRONG_COUNT = -0x302,           /* there are not as many words as there should be */
    FM_LINE_BAD_WORD = -0x303               /* a number or another word is not what it should be */
};

/* The code of the program interruption with which the guest's instruction ends; 0 where the number is none. */
static inline uint32_t fm_program_interruption(int32_t number)
{
    return number < -0x100 && number >= -0x1FF ? (uint32_t)(-number - 0x100) : 0u;
}

/* ---- The handle ---------------------------------------------------------------------------------------------------------------- */

/* A machine. It is the host's memory, and zero (FM_MACHINE_INIT) before fm_new and after fm_free. Its address is passed; it is never
 * copied, since two copies would lead to the same memory. */
typedef struct fm_machine {
    void *held;
    bool open;
} fm_machine;

#define FM_MACHINE_INIT { NULL, false }

/* Opens the handle on a machine of which nothing is set up. FM_ALREADY_OPEN, FM_NO_MEMORY: the handle stays as it was. */
int32_t fm_new(fm_machine *machine);

/* Closes the handle and frees all that its machine has. FM_CLOSED where it is closed. */
int32_t fm_free(fm_machine *machine);

/* ---- Setting up: between fm_new and fm_start. A refused setting changes nothing. ----------------------------------------------- */

/* How many sets of subchannels there are, 1 to 4: said once, before any subchannel; one where nothing is said. FM_RULE_SETS. */
int32_t fm_set_sets(fm_machine *machine, uint32_t sets);

/* One channel path more, by its identifier, 0 to 255. FM_RULE_CHANNEL_PATH. */
int32_t fm_add_path(fm_machine *machine, uint32_t chpid);

/* One unit more, of the next number from 0, at most 1023; its device is the host's. FM_RULE_UNIT_NUMBER. */
int32_t fm_add_unit(fm_machine *machine, uint32_t number);

/* These units share a control unit, which serves one of them at a time. FM_RULE_SHARED_UNIT. */
int32_t fm_share(fm_machine *machine, const uint32_t *units, size_t count);

/* One subchannel more: the subsystem-identification word that names it (0x00010000 is the first), its device number, its unit, and the
 * identifiers of its channel paths in the order of their indices. FM_RULE_SUBCHANNEL_NAME, FM_RULE_UNIT_OF_SUBCHANNEL,
 * FM_RULE_PATHS_OF_SUBCHANNEL. Two subchannels may have one unit: the first has its side 0, the second its side 1. */
int32_t fm_add_subchannel(fm_machine *machine, uint32_t word, uint32_t device, uint32_t unit, const uint32_t *chpids, size_t count);

/* What MODIFY SUBCHANNEL does with the concurrent-sense bit of the subchannels that come after this: 0 drops it, as where nothing is
 * said; any other number keeps it, which Linux wants. */
int32_t fm_set_concurrent_sense(fm_machine *machine, uint32_t kept);

/* How a channel path that is back is reported: 0 as available, as where nothing is said; any other number as initialized, which Linux
 * wants. */
int32_t fm_set_path_return(fm_machine *machine, uint32_t initialized);

/* The first line of a text, one of a script that configures a machine: storage, sets, path, unit, share or sub. The kind that a unit line
 * names counts for nothing. 0, or -0x300 less the rule of lines, or -0x200 less the rule of configurations that it breaks. */
int32_t fm_set_up_line(fm_machine *machine, const uint8_t *line, size_t length);

enum fm_history {
    FM_KEEP_NONE = 0,   /* no history: no call after fm_start takes memory but fm_line, for a line's words while it runs */
    FM_KEEP_ALL = 1     /* each accepted event is kept with its reply, until fm_forget or fm_free */
};

/* The machine runs, for storage of so many blocks of 4,096 bytes, 16 to 524,288 (2 GiB), with keys and prefixes of zero; 0 blocks are as
 * many as a storage line says. `history` is an fm_history. FM_BAD_ARGUMENT, FM_NO_MEMORY: then it is set up as it was. */
int32_t fm_start(fm_machine *machine, uint32_t blocks, uint32_t history);

/* ---- Storage that is lent ------------------------------------------------------------------------------------------------------ */

/* The guest's main storage: its bytes by absolute address, and a storage key for each block of 4,096 of them: access-control bits 0 to
 * 3, fetch protection 4, reference 5, change 6; bit 7 is ignored. The library reads keys, and sets neither reference nor change. Storage
 * is lent to a call and the host's again after it. Where no keys are lent (FM_NO_KEYS) those in the machine count, which fm_set_key
 * sets. The prefixes of the 16 CPUs are in the machine, which fm_set_prefix sets. */
typedef struct fm_storage {
    uint8_t *bytes;
    size_t size;        /* in bytes */
    uint8_t *keys;
    size_t blocks;      /* as many as there are keys: one for each block, or 0 */
} fm_storage;

/* No keys, as the last two members of an fm_storage. */
#define FM_NO_KEYS NULL, 0

/* The four arguments that lend a storage, by its address: fm_choose(&machine, FM_LENT(&storage), word). */
#define FM_LENT(s) (s)->bytes, (s)->size, (s)->keys, (s)->blocks

/* The four parameters that FM_LENT is for. */
#define FM_STORAGE uint8_t *bytes, size_t size, uint8_t *keys, size_t blocks

/* ---- Instructions with the real address of their operand ----------------------------------------------------------------------- */

/* `cpu` is 0 to 15 (else FM_BAD_ARGUMENT), and its prefix is applied to `address`; `subchannel` is general register 1, the
 * subsystem-identification word. They answer the condition code, or a program interruption, which FM_OPERAND, FM_SPECIFICATION,
 * FM_ADDRESSING and FM_PROTECTION are; fm_seen tells the status word and the serials. Privilege, and the translation of logical
 * addresses, are the host's. */

/* START SUBCHANNEL with the ORB of 12 bytes at an address. */
int32_t fm_ssch(fm_machine *machine, FM_STORAGE, uint32_t cpu, uint32_t subchannel, uint32_t address);

/* TEST SUBCHANNEL, which stores an IRB of 64 bytes at an address with codes 0 and 1. */
int32_t fm_tsch(fm_machine *machine, FM_STORAGE, uint32_t cpu, uint32_t subchannel, uint32_t address);

/* STORE SUBCHANNEL, which stores a SCHIB of 52 bytes at an address with code 0. */
int32_t fm_stsch(fm_machine *machine, FM_STORAGE, uint32_t cpu, uint32_t subchannel, uint32_t address);

/* MODIFY SUBCHANNEL with the SCHIB of 52 bytes at an address. */
int32_t fm_msch(fm_machine *machine, FM_STORAGE, uint32_t cpu, uint32_t subchannel, uint32_t address);

/* RESUME, HALT, CLEAR and CANCEL SUBCHANNEL. */
int32_t fm_rsch(fm_machine *machine, FM_STORAGE, uint32_t cpu, uint32_t subchannel);
int32_t fm_hsch(fm_machine *machine, FM_STORAGE, uint32_t cpu, uint32_t subchannel);
int32_t fm_csch(fm_machine *machine, FM_STORAGE, uint32_t cpu, uint32_t subchannel);
int32_t fm_xsch(fm_machine *machine, FM_STORAGE, uint32_t cpu, uint32_t subchannel);

/* TEST PENDING INTERRUPTION of the subclasses whose bits are one in `mask`, the byte of control register 6 (0x80 is subclass 0; above
 * 255 FM_BAD_ARGUMENT). With code 1 two words of the interruption code are stored at the address; three at real 184 where that is 0. */
int32_t fm_tpi(fm_machine *machine, FM_STORAGE, uint32_t cpu, uint32_t mask, uint32_t address);

/* RESET CHANNEL PATH: `path` is general register 1. The path is reset by fm_path_reset, when the host likes. */
int32_t fm_rchp(fm_machine *machine, FM_STORAGE, uint32_t cpu, uint32_t path);

/* STORE CHANNEL REPORT WORD, 4 bytes at an address: a report with code 0, zero with code 1. */
int32_t fm_stcrw(fm_machine *machine, FM_STORAGE, uint32_t cpu, uint32_t address);

/* STORE CHANNEL PATH STATUS, 32 bytes at an address: a bit for each channel path. It sets no condition code: 0. */
int32_t fm_stcps(fm_machine *machine, FM_STORAGE, uint32_t cpu, uint32_t address);

/* For hosts without a guest that modifies subchannels: STORE SUBCHANNEL to real F00 (hexadecimal), where the interruption subclass (the
 * three rightmost bits of `subclass`; above 255 FM_BAD_ARGUMENT), the multipath mode (0 off, any other number on) and the enabled bit are
 * placed, and MODIFY SUBCHANNEL from there, whose code it answers. The 52 bytes of storage at F00 are overwritten. */
int32_t fm_enable(fm_machine *machine, FM_STORAGE, uint32_t cpu, uint32_t subchannel, uint32_t subclass, uint32_t multipath);

/* ---- Instructions with their operand by value, for hosts whose operands stand at logical addresses ----------------------------- */

/* No storage is lent. Before the call the host tests that the operand is on its boundary and may be fetched or stored; after it the host
 * stores what was left. The condition code, or FM_OPERAND. FM_BAD_ARGUMENT where the count is another than the one that is named, or
 * `cpu` is above 15. What is not left stays as it was. */

/* START SUBCHANNEL with an ORB: 12 bytes. */
int32_t fm_ssch_orb(fm_machine *machine, uint32_t cpu, uint32_t subchannel, const uint8_t *orb, size_t count);

/* MODIFY SUBCHANNEL with a SCHIB: 52 bytes. */
int32_t fm_msch_schib(fm_machine *machine, uint32_t cpu, uint32_t subchannel, const uint8_t *schib, size_t count);

/* STORE SUBCHANNEL, which leaves a SCHIB with code 0: 52 bytes. */
int32_t fm_stsch_schib(fm_machine *machine, uint32_t cpu, uint32_t subchannel, uint8_t *schib, size_t count);

/* TEST SUBCHANNEL, which leaves an IRB with codes 0 and 1: 64 bytes. */
int32_t fm_tsch_irb(fm_machine *machine, uint32_t cpu, uint32_t subchannel, uint8_t *irb, size_t count);

/* TEST PENDING INTERRUPTION of the subclasses in `mask`, as fm_tpi, which leaves the interruption code with code 1: 3 words. */
int32_t fm_tpi_code(fm_machine *machine, uint32_t cpu, uint32_t mask, uint32_t *code, size_t count);

/* STORE CHANNEL REPORT WORD: 1 word, a report with code 0, zero with code 1. */
int32_t fm_stcrw_word(fm_machine *machine, uint32_t cpu, uint32_t *report, size_t count);

/* STORE CHANNEL PATH STATUS: 32 bytes, a bit for each channel path from the left. */
int32_t fm_stcps_bytes(fm_machine *machine, uint32_t cpu, uint8_t *paths, size_t count);

/* ---- Turns: nothing moves by itself -------------------------------------------------------------------------------------------- */

enum fm_turn {
    FM_NOTHING_DUE = 0,
    FM_TURNED = 1,          /* something was done; more may be due */
    FM_DEVICE_CALLED = 2    /* of a unit: its device is to be called, by fm_work and fm_report */
};

/* A turn of a subchannel: on the first of its paths where that is due it takes the signal that waits, or the subsystem does what it must
 * for it. FM_NO_SUCH_SUBCHANNEL; FM_WIRE_FULL: later, after a turn of the unit. */
int32_t fm_turn_subchannel(fm_machine *machine, FM_STORAGE, uint32_t subchannel);

/* A turn of a unit: it takes the signal that waits for it, or hands in a report that its device is not needed for. FM_DEVICE_CALLED
 * where its device is to be called. FM_NO_SUCH_UNIT; FM_WIRE_FULL: later, after a turn of the subchannel. */
int32_t fm_turn_unit(fm_machine *machine, FM_STORAGE, uint32_t unit);

/* What such turns do, one by one, for hosts that choose the order themselves. */

enum fm_choice {
    FM_IDLE = 0,            /* nothing was due */
    FM_OFFERED = 1,         /* a program was offered to the unit */
    FM_RESET_SENT = 2,
    FM_HALT_SENT = 3,
    FM_STATUS_MADE = 4      /* status was made pending */
};

/* The subsystem does what it must for a subchannel, and says which: an fm_choice. FM_NO_SUCH_SUBCHANNEL, FM_WIRE_FULL. */
int32_t fm_choose(fm_machine *machine, FM_STORAGE, uint32_t subchannel);

/* A subchannel takes the signal that waits longest on its path of this index, 0 to 7: 1 taken, 0 ignored. FM_NOT_SENT,
 * FM_NO_SUCH_SUBCHANNEL, FM_NO_SUCH_PATH, FM_WIRE_FULL. */
int32_t fm_up(fm_machine *machine, FM_STORAGE, uint32_t subchannel, uint32_t path);

/* A unit takes the signal that waits longest on this path of a subchannel: 1 taken, 0 ignored. Refused as fm_up. */
int32_t fm_down(fm_machine *machine, FM_STORAGE, uint32_t subchannel, uint32_t path);

/* ---- Devices: by call and return ----------------------------------------------------------------------------------------------- */

enum fm_call_kind {
    FM_CALL_NONE = 0,       /* the device is asked for nothing */
    FM_CALL_INITIAL = 1,    /* the initial status of a command: answer FM_BEGINS, or FM_ENDED with channel end or unit check alone */
    FM_CALL_ABSORB = 2,     /* to take bytes of a write: answer FM_ABSORBED */
    FM_CALL_SUPPLY = 3,     /* to give bytes of a read: answer FM_SUPPLIED */
    FM_CALL_FINISH = 4      /* the final status of a command, with device end: answer FM_ENDED */
};

/* What the device of a unit is asked for. It is handed back to fm_report as it was told. */
typedef struct fm_call {
    uint64_t number;        /* of the program */
    uint64_t command;       /* of the command */
    uint64_t sequence;      /* of the last chunk */
    uint32_t kind;          /* fm_call_kind */
    uint32_t side;          /* of the unit: that of the program's subchannel, 0 or 1 */
    uint32_t code;          /* FM_CALL_INITIAL: the command code */
    uint32_t from_side;     /* FM_CALL_INITIAL: the side by which the command came, */
    uint32_t from_path;     /* and the index of its path, 0 to 7; of FM_AWAY the index of a path */
    uint32_t count;         /* FM_CALL_ABSORB: how many bytes there are; FM_CALL_SUPPLY: the most that may be given: 1 to 256 */
} fm_call;

enum fm_answer_kind {
    FM_BEGINS = 1,          /* the initial status is empty: the command begins */
    FM_ABSORBED = 2,        /* `count` bytes were taken, from the first on: at most as many as there were */
    FM_SUPPLIED = 3,        /* the bytes of the call are given: at most as many as were asked for, none where there are no more */
    FM_ENDED = 4            /* the command ended with `status` */
};

/* Device status, as byte 0 of word 2 of a subchannel-status word has it. */
enum fm_device_status {
    FM_ATTENTION = 0x80,
    FM_STATUS_MODIFIER = 0x40,
    FM_CONTROL_UNIT_END = 0x20,
    FM_BUSY = 0x10,
    FM_CHANNEL_END = 0x08,
    FM_DEVICE_END = 0x04,
    FM_UNIT_CHECK = 0x02,
    FM_UNIT_EXCEPTION = 0x01
};

/* What a device answers. Members of which `kind` says nothing are ignored. */
typedef struct fm_answer {
    uint32_t kind;          /* fm_answer_kind */
    uint32_t status;        /* FM_ENDED: fm_device_status */
    uint32_t count;         /* FM_ABSORBED */
    uint32_t more;          /* FM_ENDED: not 0 where a read was cut short, and the device had more bytes */
} fm_answer;

enum fm_due {
    FM_RESTS = 0,           /* nothing */
    FM_CALL_DUE = 1,        /* its device is to be called: `call` tells for what */
    FM_SIGNAL_DUE = 2,      /* a signal waits for it, which fm_turn_unit takes */
    FM_REPORT_DUE = 3,      /* it has a report that its device is not needed for, which fm_turn_unit hands in */
    FM_AWAY = 4,            /* its program is away from its path, and may ask for the path `from_path`, by fm_unit_ask */
    FM_AWAY_WAITS = 5       /* its program is away, and there is no path that it may ask for */
};

/* What a unit is to do: an fm_due. No event. Of FM_CALL_DUE `call` is the call, and the bytes of FM_CALL_ABSORB are written to `bytes`,
 * as far as `room` reaches: 256 are enough; until fm_report is accepted the same is asked for again. Else the members of `call` are 0,
 * but for `from_path` of FM_AWAY. FM_NO_SUCH_UNIT. */
int32_t fm_work(fm_machine *machine, uint32_t unit, fm_call *call, uint8_t *bytes, size_t room);

/* Hands in what the device of a unit answered to a call; of the call its numbers and its side count. `supplied` are the `count` bytes of
 * FM_SUPPLIED, at most 256, else none (NULL, 0). 0. FM_BAD_ARGUMENT: numbers that are no answer. FM_NOT_NOW: an answer against the law of
 * devices, as the kinds above have it, or to a call that is no longer at hand. FM_WIRE_FULL, FM_NO_MEMORY: the same is handed in later,
 * and the device is not called again. FM_NO_SUCH_UNIT. A read backward (code xC) is to be ended with unit check: where a device begins
 * one, it is asked for no bytes. */
int32_t fm_report(fm_machine *machine, FM_STORAGE, uint32_t unit, const fm_call *call, const fm_answer *answer,
                  const uint8_t *supplied, size_t count);

/* ---- What units do of themselves ----------------------------------------------------------------------------------------------- */

/* All answer 0. FM_NO_SUCH_UNIT; FM_NOT_NOW where the unit is not in a state for it; FM_NO_SUCH_PATH; FM_WIRE_FULL. `path` is the index
 * of a path of the subchannel. */

/* The program that is connected leaves its path and works on. */
int32_t fm_unit_leave(fm_machine *machine, FM_STORAGE, uint32_t unit);

/* The program that is without a path asks for this one. */
int32_t fm_unit_ask(fm_machine *machine, FM_STORAGE, uint32_t unit, uint32_t path);

/* The unit asks for attention on a path of its side, 0 or 1 (above FM_BAD_ARGUMENT). */
int32_t fm_unit_attention(fm_machine *machine, FM_STORAGE, uint32_t unit, uint32_t path, uint32_t side);

/* The unit tells its side, 0 or 1 (above FM_BAD_ARGUMENT), on a path, that it was restarted. */
int32_t fm_unit_notice(fm_machine *machine, FM_STORAGE, uint32_t unit, uint32_t path, uint32_t side);

/* The unit is restarted: it forgets its program, and both sides are to be reset. The host puts its device back to its opening. */
int32_t fm_unit_restart(fm_machine *machine, FM_STORAGE, uint32_t unit);

/* ---- Channel paths and the reset of the subsystem ------------------------------------------------------------------------------ */

/* By the identifier of the path. All answer 0, and leave a channel report. FM_NO_SUCH_PATH; FM_NOT_NOW where it is down already, is up
 * already, or no reset of it was asked for. */
int32_t fm_path_down(fm_machine *machine, FM_STORAGE, uint32_t chpid);
int32_t fm_path_up(fm_machine *machine, FM_STORAGE, uint32_t chpid);
int32_t fm_path_reset(fm_machine *machine, FM_STORAGE, uint32_t chpid);

/* The channel subsystem is reset; storage, units and signals on their way stay. 0. */
int32_t fm_system_reset(fm_machine *machine, FM_STORAGE);

/* ---- Events on storage, for hosts that keep a history and replay it ------------------------------------------------------------ */

/* The guest's CPUs store where they please between two calls, and no event tells of it. A host that replays a history enters what they
 * stored by these. Absolute addresses, no key is asked. All answer 0. FM_ADDRESSING. */

/* At most 256 bytes (else FM_BAD_ARGUMENT) are put into storage. They are not part of what is lent. */
int32_t fm_put(fm_machine *machine, FM_STORAGE, uint32_t address, const uint8_t *put, size_t count);

/* The key of the block in which an address lies is set, a byte (above 255 FM_BAD_ARGUMENT) whose bit 7 is ignored, in the keys that are
 * lent, or in the machine where none are. */
int32_t fm_set_key(fm_machine *machine, FM_STORAGE, uint32_t address, uint32_t key);

/* The prefix of a CPU, 0 to 15 (else FM_BAD_ARGUMENT), is set: a multiple of 8,192 whose 8,192 bytes are in storage (SET PREFIX).
 * FM_SPECIFICATION, FM_ADDRESSING. */
int32_t fm_set_prefix(fm_machine *machine, FM_STORAGE, uint32_t cpu, uint32_t address);

/* ---- Looks: no event, and nothing changes -------------------------------------------------------------------------------------- */

/* The interruption subclasses of which a request waits, 0 to 255: the bit 0x80 is subclass 0, as in control register 6. */
int32_t fm_requests(fm_machine *machine);

/* How many channel reports wait for STORE CHANNEL REPORT WORD, at most 16. */
int32_t fm_report_count(fm_machine *machine);

/* The SCHIB that STORE SUBCHANNEL would store, 52 bytes, as far as `room` reaches. FM_NO_SUCH_SUBCHANNEL. */
int32_t fm_schib(fm_machine *machine, uint32_t subchannel, uint8_t *schib, size_t room);

/* The IRB that TEST SUBCHANNEL would store where the subchannel is enabled, 64 bytes, as far as `room` reaches. FM_NO_SUCH_SUBCHANNEL. */
int32_t fm_irb(fm_machine *machine, uint32_t subchannel, uint8_t *irb, size_t room);

/* How many statuses a subchannel made, and how many were cleared: status is pending where fewer were. FM_NO_SUCH_SUBCHANNEL. */
int32_t fm_serials(fm_machine *machine, uint32_t subchannel, uint64_t *made, uint64_t *cleared);

enum fm_path_state {
    FM_PATH_DOWN = 0,       /* or not configured */
    FM_PATH_UP = 1,
    FM_PATH_ENGAGED = 3     /* up, and serving a subchannel */
};

/* A channel path, by its identifier: an fm_path_state. Above 255 FM_BAD_ARGUMENT. */
int32_t fm_path(fm_machine *machine, uint32_t chpid);

enum fm_told_kind {
    FM_TOLD_NOTHING = 0,
    FM_TOLD_DONE = 1,
    FM_TOLD_SHOWN = 2,              /* bytes of storage */
    FM_TOLD_CODE = 3,               /* a condition code */
    FM_TOLD_STATUS = 4,             /* a condition code, and in `words` the subchannel-status word */
    FM_TOLD_INTERRUPTION = 5,       /* TEST PENDING INTERRUPTION: in `words` the interruption code, zero where none was found */
    FM_TOLD_PATH_RESET = 6,         /* RESET CHANNEL PATH */
    FM_TOLD_CHANNEL_REPORT = 7,     /* STORE CHANNEL REPORT WORD: in `words[0]` the report, or zero */
    FM_TOLD_PATHS = 8,              /* STORE CHANNEL PATH STATUS */
    FM_TOLD_OFFERED = 9,            /* with `number` and `path` */
    FM_TOLD_RESET_SENT = 10,        /* with `number` and `path` */
    FM_TOLD_HALT_SENT = 11,         /* with `number` and `path` */
    FM_TOLD_STATUS_MADE = 12,
    FM_TOLD_IDLE = 13,
    FM_TOLD_UP = 14,                /* a signal up was met */
    FM_TOLD_DOWN = 15               /* a signal down was met */
};

/* What an event answered beyond its number. */
typedef struct fm_told {
    uint64_t made;          /* an instruction with code 0 or 1: how many statuses its subchannel made, */
    uint64_t cleared;       /* and how many of them were cleared */
    uint64_t number;        /* of the program that was offered, reset or halted, */
    uint32_t kind;          /* fm_told_kind */
    uint32_t path;          /* and the index of its path */
    uint32_t words[3];
} fm_told;

/* What the last accepted event answered. Where no history is kept, an event that was refused since may have left FM_TOLD_NOTHING. */
int32_t fm_seen(fm_machine *machine, fm_told *told);

/* ---- Looks at what a subchannel and its unit have, and at the wires between them ------------------------------------------------ */

/* For monitors, logs and tests. All answer 0, and write what they tell where the last argument leads; refused they write nothing. Numbers
 * of programs, connections, commands, chunks and attentions are those of the signals (docs/REFERENCE.md). */

/* There is no path, in members that tell the index of one. */
enum { FM_NO_PATH = 8 };

enum fm_phase {
    FM_PHASE_FREE = 0,      /* nothing holds the device */
    FM_PHASE_OFFER = 1,     /* a program is offered */
    FM_PHASE_ON = 2,        /* a program holds the device, and is connected */
    FM_PHASE_AWAY = 3,      /* a program holds the device, and is not connected */
    FM_PHASE_LETTING_GO = 4,    /* the device is let go, and has not answered yet */
    FM_PHASE_RESET = 5      /* the device is to be reset */
};

/* The hold of a subchannel: what the subsystem takes its device to be held by. */
typedef struct fm_hold_view {
    uint64_t number;        /* under which the program is offered or holds, or the device is reset; 0 of FM_PHASE_FREE */
    uint64_t connection;    /* of FM_PHASE_ON: 0 that of the Accept, else that of the last Grant */
    uint64_t seen;          /* the last connection number that was seen since the Accept */
    uint64_t restarts;      /* how often the unit was restarted, as far as the subsystem knows */
    uint32_t phase;         /* fm_phase */
    uint32_t path;          /* the index of the path of FM_PHASE_OFFER, ON and LETTING_GO, else FM_NO_PATH */
    uint32_t reset_path;    /* on which the Reset was sent, or FM_NO_PATH */
    uint32_t first_path;    /* of the last Accept, or FM_NO_PATH */
    uint32_t single_path;   /* 1: the program keeps to the path of its Accept; else 0 */
} fm_hold_view;

/* FM_NO_SUCH_SUBCHANNEL. */
int32_t fm_hold(fm_machine *machine, uint32_t subchannel, fm_hold_view *hold);

/* The programs of a subchannel, by the numbers of their starts: 1 is the first START SUBCHANNEL that was accepted. 0: there is none. */
typedef struct fm_programs_view {
    uint64_t starts;        /* how many were accepted */
    uint64_t waiting;       /* the program that waits to be begun */
    uint64_t holding;       /* the program that holds the device */
    uint64_t suspended;     /* the program that is suspended */
    uint64_t offered;       /* the program that was offered last, */
    uint64_t drawn;         /* and the last number that was drawn, for an offer or a Reset */
} fm_programs_view;

/* FM_NO_SUCH_SUBCHANNEL. */
int32_t fm_programs(fm_machine *machine, uint32_t subchannel, fm_programs_view *programs);

enum fm_place {
    FM_PLACE_IDLE = 0,      /* no program holds the unit */
    FM_PLACE_ON = 1,        /* its program is on a path, */
    FM_PLACE_ASKS = 2,      /* asks for one, */
    FM_PLACE_AWAY = 3       /* or is at work without one */
};

enum fm_progress {
    FM_PROGRESS_NONE = 0,   /* no command is at hand */
    FM_PROGRESS_NEW = 1,    /* it is not begun */
    FM_PROGRESS_WORKING = 2,
    FM_PROGRESS_CHANNEL_ENDED = 3,  /* its channel end is sent */
    FM_PROGRESS_ENDED = 4   /* its last End is sent */
};

/* What a unit remembers. Sides are 0 and 1. */
typedef struct fm_unit_view {
    uint64_t number;        /* of the program that holds it; 0 of FM_PLACE_IDLE */
    uint64_t connection;    /* of that program: 0 that of the Accept, and one more each time that it asked for a path */
    uint64_t command;       /* the last command of that program, which is the one at hand; 0 before its first */
    uint64_t sequence;      /* the last chunk of the command at hand */
    uint64_t attention;     /* the attention that was sent and is not answered, or 0 */
    uint64_t restarts;      /* how often it was restarted */
    uint64_t floors[2];     /* of each side the greatest number that was taken */
    uint32_t place;         /* fm_place */
    uint32_t side;          /* of the program */
    uint32_t path;          /* the index of the path of FM_PLACE_ON and FM_PLACE_ASKS, else FM_NO_PATH */
    uint32_t progress;      /* fm_progress, of the command at hand, */
    uint32_t code;          /* its code, */
    uint32_t command_path;  /* and the index of the path by which it came, or FM_NO_PATH */
    uint32_t halted;        /* 1: the program is to end; else 0 */
    uint32_t attention_side;    /* to which the attention was sent */
    uint32_t fresh[2];      /* of each side 1: it was not reset since the last restart; else 0 */
} fm_unit_view;

/* FM_NO_SUCH_UNIT. */
int32_t fm_unit_state(fm_machine *machine, uint32_t unit, fm_unit_view *remembered);

/* How many signals wait on the wires of a subchannel, 0 to 8, by the index of the path. */
typedef struct fm_wires_view {
    uint32_t down[8];       /* to the unit */
    uint32_t up[8];         /* to the subsystem */
} fm_wires_view;

/* FM_NO_SUCH_SUBCHANNEL. */
int32_t fm_wires(fm_machine *machine, uint32_t subchannel, fm_wires_view *wires);

enum fm_signal_kind {
    /* down */
    FM_SIGNAL_SELECT = 1, FM_SIGNAL_COMMAND = 2, FM_SIGNAL_GRANT = 3, FM_SIGNAL_REFUSE = 4, FM_SIGNAL_TOOK = 5, FM_SIGNAL_GIVE = 6,
    FM_SIGNAL_HALT = 7, FM_SIGNAL_RELEASE = 8, FM_SIGNAL_RESET = 9, FM_SIGNAL_GOT = 10,
    /* up */
    FM_SIGNAL_ACCEPT = 11, FM_SIGNAL_BUSY = 12, FM_SIGNAL_LEAVE = 13, FM_SIGNAL_BACK = 14, FM_SIGNAL_DATA = 15, FM_SIGNAL_END = 16,
    FM_SIGNAL_RELEASED = 17, FM_SIGNAL_CLEARED = 18, FM_SIGNAL_NOTICE = 19, FM_SIGNAL_ATTN = 20
};

/* A signal that waits on a wire. Members that a signal of its kind has not are 0. */
typedef struct fm_signal_view {
    uint64_t number;        /* of the program; of FM_SIGNAL_RESET and CLEARED of the Reset, of GOT and ATTN of the attention */
    uint64_t connection;
    uint64_t command;
    uint64_t sequence;      /* of the chunk */
    uint64_t restarts;      /* of FM_SIGNAL_RESET and NOTICE: how often the unit was restarted */
    uint32_t kind;          /* fm_signal_kind; fm_signal_name of filuvamoth_names.h has its name */
    uint32_t code;          /* of FM_SIGNAL_COMMAND: the command code */
    uint32_t room;          /* of FM_SIGNAL_COMMAND and TOOK: how many bytes of a read may come */
    uint32_t bytes;         /* of FM_SIGNAL_GIVE, and of DATA of a read: how many bytes it brings */
    uint32_t absorbed;      /* of FM_SIGNAL_DATA of a write: how many bytes were taken */
    uint32_t status;        /* of FM_SIGNAL_END and ATTN: fm_device_status */
    uint32_t more;          /* of FM_SIGNAL_END: 1 where the device had more bytes, else 0 */
} fm_signal_view;

/* The signal at an index of the wire of a path, 0 for the one that fm_down, or fm_up, would take. FM_NO_SUCH_SUBCHANNEL; FM_NO_SUCH_PATH
 * where the subchannel has no path of this index; FM_NOT_SENT where fewer signals wait. */
int32_t fm_signal_down(fm_machine *machine, uint32_t subchannel, uint32_t path, uint32_t index, fm_signal_view *signal);
int32_t fm_signal_up(fm_machine *machine, uint32_t subchannel, uint32_t path, uint32_t index, fm_signal_view *signal);

/* ---- Events as text ------------------------------------------------------------------------------------------------------------ */

/* Performs the event that the first line of a text asks for, a line of a script (docs/SCRIPTS.md): "ssch 0 500", "cpu 3 tpi 80 0". The
 * text that chsim prints for it behind its number, with no line feed, is written to `text` as far as `room` reaches, and `*written` is
 * how many bytes were: 773 at most. A refused event has a text too, as "refused 3". `report UNIT SIDE PROGRAM COMMAND CHUNK ANSWER` hands
 * in what a device answered: `begins`, `absorbed COUNT`, `supplied BYTES` (`-` for none), `again`, `ended STATUS`, `ended STATUS more`.
 * The number of the event's answer; or FM_LINE_UNKNOWN_WORD of `dev`, `glance`, `race`, of lines that set up and of those that are
 * none, FM_LINE_WRONG_COUNT, FM_LINE_BAD_WORD, or FM_NO_MEMORY for its words: then nothing is performed and nothing written. */
int32_t fm_line(fm_machine *machine, FM_STORAGE, const uint8_t *line, size_t length, uint8_t *text, size_t room, size_t *written);

/* ---- The history: no event, and but for fm_forget nothing changes --------------------------------------------------------------- */

/* How many entries are kept, each an accepted event with its reply: with FM_KEEP_ALL all since fm_start or fm_forget, else that of the
 * last call at most. */
int32_t fm_history_count(fm_machine *machine, uint64_t *count);

/* The entry of this number, from 0, as a line that fm_line takes, at most 590 bytes: `written` says how many stand in the room. A machine
 * that is set up alike, on storage that was alike at fm_start, answers these lines in order as this one did, where what the CPUs stored
 * was entered by fm_put, fm_set_key and fm_set_prefix. FM_BAD_ARGUMENT, and nothing written, where there is no such entry. */
int32_t fm_history_line(fm_machine *machine, uint64_t index, uint8_t *text, size_t room, size_t *written);

/* What fm_line writes of the reply of that entry, at most 773 bytes. */
int32_t fm_history_reply(fm_machine *machine, uint64_t index, uint8_t *text, size_t room, size_t *written);

/* The entries that are kept are let go, and their room is for others; the machine stays as it is. */
int32_t fm_forget(fm_machine *machine);

/* ---- What is passed has these sizes -------------------------------------------------------------------------------------------- */

typedef char fm_machine_has_16_bytes[sizeof(fm_machine) == 16 ? 1 : -1];
typedef char fm_call_has_48_bytes[sizeof(fm_call) == 48 ? 1 : -1];
typedef char fm_answer_has_16_bytes[sizeof(fm_answer) == 16 ? 1 : -1];
typedef char fm_told_has_48_bytes[sizeof(fm_told) == 48 ? 1 : -1];
typedef char fm_hold_view_has_56_bytes[sizeof(fm_hold_view) == 56 ? 1 : -1];
typedef char fm_programs_view_has_48_bytes[sizeof(fm_programs_view) == 48 ? 1 : -1];
typedef char fm_unit_view_has_104_bytes[sizeof(fm_unit_view) == 104 ? 1 : -1];
typedef char fm_wires_view_has_64_bytes[sizeof(fm_wires_view) == 64 ? 1 : -1];
typedef char fm_signal_view_has_72_bytes[sizeof(fm_signal_view) == 72 ? 1 : -1];

#ifdef __cplusplus
}
#endif
#endif
