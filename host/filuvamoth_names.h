/* filuvamoth_names.h: what the refusals, phases and signals of filuvamoth.h are called. C over no call, in this header alone. */
#ifndef FILUVAMOTH_NAMES_H
#define FILUVAMOTH_NAMES_H

#include "filuvamoth.h"

/* The name of a refusal, as "the wire is full", in ASCII; "no refusal" of all other numbers. */
static inline const char *fm_name(int32_t number)
{
    switch (number) {
    case FM_NO_MEMORY: return "there is no memory";
    case FM_CLOSED: return "the handle is closed";
    case FM_ALREADY_OPEN: return "the handle is open already";
    case FM_AT_OTHER_STAGE: return "the machine is at another stage";
    case FM_BAD_ARGUMENT: return "a number or a length is not taken";
    case FM_OTHER_SIZE: return "storage is of another size";
    case FM_NUMBERS_USED_UP: return "the numbers of events are used up";
    case FM_WIRE_FULL: return "the wire is full";
    case FM_NOT_SENT: return "no signal waits";
    case FM_NO_SUCH_SUBCHANNEL: return "no such subchannel";
    case FM_NO_SUCH_PATH: return "no such path";
    case FM_NO_SUCH_UNIT: return "no such unit";
    case FM_NOT_NOW: return "not now";
    case FM_PROTECTION: return "protection exception";
    case FM_ADDRESSING: return "addressing exception";
    case FM_SPECIFICATION: return "specification exception";
    case FM_OPERAND: return "operand exception";
    case FM_RULE_STORAGE_SIZE: return "the size of storage breaks its rule";
    case FM_RULE_CHANNEL_PATH: return "a channel path breaks its rule";
    case FM_RULE_UNIT_NUMBER: return "a unit's number breaks its rule";
    case FM_RULE_UNIT_OF_SUBCHANNEL: return "the unit of a subchannel breaks its rule";
    case FM_RULE_PATHS_OF_SUBCHANNEL: return "the paths of a subchannel break their rule";
    case FM_RULE_SHARED_UNIT: return "units that share break their rule";
    case FM_RULE_SUBCHANNEL_NAME: return "the name of a subchannel breaks its rule";
    case FM_RULE_SETS: return "the sets of subchannels break their rule";
    case FM_LINE_UNKNOWN_WORD: return "the line's first word is of no event";
    case FM_LINE_WRONG_COUNT: return "the line has too few or too many words";
    case FM_LINE_BAD_WORD: return "a word of the line is not what it should be";
    default: return "no refusal";
    }
}

/* The name of an fm_phase; "no phase" of all other numbers. */
static inline const char *fm_phase_name(uint32_t phase)
{
    switch (phase) {
    case FM_PHASE_FREE: return "free";
    case FM_PHASE_OFFER: return "offer";
    case FM_PHASE_ON: return "on";
    case FM_PHASE_AWAY: return "away";
    case FM_PHASE_LETTING_GO: return "letting go";
    case FM_PHASE_RESET: return "reset";
    default: return "no phase";
    }
}

/* The name of an fm_signal_kind; "no signal" of all other numbers. */
static inline const char *fm_signal_name(uint32_t kind)
{
    switch (kind) {
    case FM_SIGNAL_SELECT: return "Select";
    case FM_SIGNAL_COMMAND: return "Command";
    case FM_SIGNAL_GRANT: return "Grant";
    case FM_SIGNAL_REFUSE: return "Refuse";
    case FM_SIGNAL_TOOK: return "Took";
    case FM_SIGNAL_GIVE: return "Give";
    case FM_SIGNAL_HALT: return "Halt";
    case FM_SIGNAL_RELEASE: return "Release";
    case FM_SIGNAL_RESET: return "Reset";
    case FM_SIGNAL_GOT: return "Got";
    case FM_SIGNAL_ACCEPT: return "Accept";
    case FM_SIGNAL_BUSY: return "Busy";
    case FM_SIGNAL_LEAVE: return "Leave";
    case FM_SIGNAL_BACK: return "Back";
    case FM_SIGNAL_DATA: return "Data";
    case FM_SIGNAL_END: return "End";
    case FM_SIGNAL_RELEASED: return "Released";
    case FM_SIGNAL_CLEARED: return "Cleared";
    case FM_SIGNAL_NOTICE: return "Notice";
    case FM_SIGNAL_ATTN: return "Attn";
    default: return "no signal";
    }
}

#endif
