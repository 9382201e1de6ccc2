/* The 600-record pack, for C on x86-64: link libsectors.a (tools/prove.py --lib sectors). It has 100 cylinders of 100 sectors; a record
 * takes 16 sectors and never crosses a cylinder. Each look-up takes any number and answers 28 (SECTORS_NOT_IN_PACK), its only
 * refusal, with result 0, for a record of 600 or more and for a sector that is in no record. */
#ifndef SECTORS_H
#define SECTORS_H

#include "keeper.h"

#ifdef __cplusplus
extern "C" {
#endif

enum {
    SECTORS_RECORDS = 600,    /* records of the pack */
    SECTORS_IN_RECORD = 16,   /* sectors of a record */
    SECTORS_NOT_IN_PACK = 28  /* the refusal */
};

/* The first sector of a record: (record / 6) * 100 + (record % 6) * 16. The whole table: sectors_starts.h. */
KeeperAnswer sectors_start_of(uint32_t record);

/* The record that a sector is in. */
KeeperAnswer sectors_record_of(uint32_t sector);

#ifdef __cplusplus
}
#endif
#endif
