/* The engine for C: the functions of target/staticlib/libengine.a, which checks/archive makes at the repository's top, for x86-64 Linux.
   c/steps.c is an example; what each function answers and leaves in every buffer is promised, and proved, in crates/engine_c/src/lib.rt.

   A slice is a pointer and then a length. What a caller owes, which no proof can look at:
   - a pointer is valid for the length given with it, for reading, and for writing where it is not const; it is not NULL, also where the length is 0;
     one to uint32_t is aligned for that type;
   - a buffer that is written shares no byte with any other that is given in the same call;
   - two threads use one buffer at a time only to read it; there is nothing else that calls share;
   - a call finds room on the stack: fewer than 16,000 bytes were measured, of a rehearsal fewer than 96,000 (docs/CERTIFICATE.md, "The engine"). None allocates.

   Each returns a number of document 01's table. All but 0 leave every byte of every buffer as it was, but for the record of a bad sheet (below). */
#ifndef ENGINE_H
#define ENGINE_H

#include <stddef.h>
#include <stdint.h>

#ifdef __cplusplus
extern "C" {
#endif

enum {
  ENGINE_DONE = 0,
  ENGINE_BAD_WORLD = 1, /* world not good; at a start and a rehearsal, wrong length */
  ENGINE_BAD_STEP = 2,  /* kind, id or value out of range; start mask 0 */
  ENGINE_EMPTY = 3,     /* DELIVER or DROP of a free place */
  ENGINE_DEAD = 4,      /* actor, receiver of a DELIVER, or CRASH target crashed */
  ENGINE_NOT_NOW = 5,   /* step not open to its actor */
  ENGINE_NOT_YET = 6,   /* message must wait */
  ENGINE_WORN = 7,      /* a try or stamp count would pass 65,535 */
  ENGINE_NO_ROOM = 8,   /* the step needs more than is free; a buffer too short for what is to be written or told */
  ENGINE_BAD_SHEET = 9  /* sheet not as document 01 says */
};

enum {
  ENGINE_WORLD = 65536,  /* bytes of a world */
  ENGINE_TOLD = 9,       /* what a step tells */
  ENGINE_LENGTH = 4,     /* what a rehearsal tells */
  ENGINE_RECORD = 240033 /* no record is longer (rules/proofs/Longest) */
};

/* 0 for a good world, else BAD WORLD. */
uint8_t world_good(const uint8_t *world, size_t world_length);

/* A fresh world of the relays in mask: BAD WORLD for another length, then BAD STEP for mask 0. */
uint8_t world_start(uint8_t *world, size_t world_length, uint8_t mask);

/* One step. NO ROOM, before all else, where told is shorter than nine bytes. An accepted step writes what it tells into the first nine, numbers high byte
   first: event (0 none, 1 view opened, 2 read ended, 3 write ended) 1, who 1, stamp count 2, stamp desk 1, value or view 4. The bytes past them stay. */
uint8_t world_step(uint8_t *world, size_t world_length, uint8_t kind, uint8_t id, uint32_t value, uint8_t *told, size_t told_length);

/* 0 for a sheet, else BAD SHEET. */
uint8_t sheet_check(const uint8_t *sheet, size_t sheet_length);

/* Writes the sheet of a mask and n steps, which has 6 + 8 * n bytes; those past it stay. BAD SHEET for mask 0, over 8,000 steps, or three lengths that are
   not equal; then NO ROOM. */
uint8_t sheet_write(uint8_t *buffer, size_t buffer_length, uint8_t mask, const uint8_t *kinds, size_t kinds_length, const uint8_t *ids, size_t ids_length,
                    const uint32_t *values, size_t values_length);

/* Runs a whole sheet in the world's buffer, which holds the last world afterwards, and writes its record. NO ROOM, before all else, where told is shorter than
   four bytes; then BAD WORLD, BAD SHEET (`bad 9` and a newline are then the record, where they fit), and NO ROOM where the record's buffer is shorter than the
   longest record of n steps, 33 + 30 * n bytes: ENGINE_RECORD are always enough. Of an accepted sheet the record's length goes into the first four bytes of
   told, high byte first. */
uint8_t sheet_rehearse(const uint8_t *sheet, size_t sheet_length, uint8_t *world, size_t world_length, uint8_t *record, size_t record_length, uint8_t *told,
                       size_t told_length);

#ifdef __cplusplus
}
#endif

#endif
