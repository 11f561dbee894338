/* The worked example of document 01 through the engine's C functions: step by step, then as a sheet that is written, checked and rehearsed; and refusals,
   which leave every byte. `steps SHEET RECORD` compares with these two files, and prints 'N passed, M failed'. checks/c builds and runs it. */
#include "engine.h"
#include <stdio.h>
#include <string.h>

enum { STEPS = 9, SHEET = 6 + 8 * STEPS, LONGEST = 33 + 30 * STEPS, FILL = 0xee };

enum { READ = 4, WRITE = 5, DELIVER = 6 };

struct step {
  uint8_t kind, id;
  uint32_t value;
  uint8_t answer;
  uint8_t told[ENGINE_TOLD]; /* of an accepted step */
};

/* Mask 1; WRITE 0 77, four times DELIVER 0, READ 1, three times DELIVER 0. */
static const struct step worked[STEPS] = {
    {WRITE, 0, 77, ENGINE_DONE, {0}},
    {DELIVER, 0, 0, ENGINE_DONE, {0}},
    {DELIVER, 0, 0, ENGINE_DONE, {0}},
    {DELIVER, 0, 0, ENGINE_DONE, {0}},
    {DELIVER, 0, 0, ENGINE_DONE, {3, 0, 0, 1, 0, 0, 0, 0, 77}},
    {READ, 1, 0, ENGINE_DONE, {0}},
    {DELIVER, 0, 0, ENGINE_DONE, {0}},
    {DELIVER, 0, 0, ENGINE_DONE, {2, 1, 0, 1, 0, 0, 0, 0, 77}},
    {DELIVER, 0, 0, ENGINE_EMPTY, {0}},
};

static int passed, failed;

static void check(const char *what, int holds) {
  if (holds) {
    passed++;
    return;
  }
  failed++;
  printf("FAILED: %s\n", what);
}

/* A buffer of which every byte is looked at: what it held before a call, and what it is to hold after it. */
struct lent {
  uint8_t bytes[ENGINE_RECORD + 64], expected[ENGINE_RECORD + 64];
};

static struct lent world, record, told, sheet;

static void fill(struct lent *l) {
  memset(l->bytes, FILL, sizeof l->bytes);
  memset(l->expected, FILL, sizeof l->expected);
}

static void expect(struct lent *l, const uint8_t *front, size_t length) { memcpy(l->expected, front, length); }

static int as_expected(const struct lent *l) { return memcmp(l->bytes, l->expected, sizeof l->bytes) == 0; }

/* Nothing is to change any more. */
static void keep(struct lent *l) { memcpy(l->expected, l->bytes, sizeof l->bytes); }

static uint8_t take(const struct step *k, size_t told_length) {
  return world_step(world.bytes, ENGINE_WORLD, k->kind, k->id, k->value, told.bytes, told_length);
}

static void starts(void) {
  fill(&world);
  check("other bytes are BAD WORLD", world_good(world.bytes, ENGINE_WORLD) == ENGINE_BAD_WORLD);
  check("mask 0 is BAD STEP", world_start(world.bytes, ENGINE_WORLD, 0) == ENGINE_BAD_STEP);
  check("another length is BAD WORLD", world_start(world.bytes, ENGINE_WORLD - 1, 1) == ENGINE_BAD_WORLD);
  check("refused starts leave every byte", as_expected(&world));
  check("a start is done", world_start(world.bytes, ENGINE_WORLD, 1) == ENGINE_DONE);
  check("a start is good", world_good(world.bytes, ENGINE_WORLD) == ENGINE_DONE);
}

static void steps(void) {
  for (size_t i = 0; i < STEPS; i++) {
    fill(&told);
    keep(&world);
    check("a step where told is short is NO ROOM", take(&worked[i], ENGINE_TOLD - 1) == ENGINE_NO_ROOM && take(&worked[i], 0) == ENGINE_NO_ROOM);
    check("it leaves every byte", as_expected(&world) && as_expected(&told));
    check("the step's answer", take(&worked[i], ENGINE_TOLD + 1) == worked[i].answer);
    if (worked[i].answer == ENGINE_DONE) {
      expect(&told, worked[i].told, ENGINE_TOLD);
    } else {
      check("a refusal leaves the world", as_expected(&world));
    }
    check("what is told", as_expected(&told));
    check("the world stays good", world_good(world.bytes, ENGINE_WORLD) == ENGINE_DONE);
  }
}

static void sheets(const uint8_t *file) {
  uint8_t kinds[STEPS], ids[STEPS];
  uint32_t values[STEPS];
  for (size_t i = 0; i < STEPS; i++) {
    kinds[i] = worked[i].kind;
    ids[i] = worked[i].id;
    values[i] = worked[i].value;
  }
  fill(&sheet);
  check("mask 0 is BAD SHEET", sheet_write(sheet.bytes, SHEET, 0, kinds, STEPS, ids, STEPS, values, STEPS) == ENGINE_BAD_SHEET);
  check("fewer values are BAD SHEET", sheet_write(sheet.bytes, SHEET, 1, kinds, STEPS, ids, STEPS, values, STEPS - 1) == ENGINE_BAD_SHEET);
  check("fewer ids are BAD SHEET", sheet_write(sheet.bytes, SHEET, 1, kinds, STEPS, ids, STEPS - 1, values, STEPS) == ENGINE_BAD_SHEET);
  check("fewer kinds are BAD SHEET", sheet_write(sheet.bytes, SHEET, 1, kinds, STEPS - 1, ids, STEPS, values, STEPS) == ENGINE_BAD_SHEET);
  check("a short buffer is NO ROOM", sheet_write(sheet.bytes, SHEET - 1, 1, kinds, STEPS, ids, STEPS, values, STEPS) == ENGINE_NO_ROOM);
  check("sheets not written leave every byte", as_expected(&sheet));
  check("a sheet is written", sheet_write(sheet.bytes, SHEET + 1, 1, kinds, STEPS, ids, STEPS, values, STEPS) == ENGINE_DONE);
  expect(&sheet, file, SHEET);
  check("its bytes", as_expected(&sheet));
  check("it is a sheet", sheet_check(sheet.bytes, SHEET) == ENGINE_DONE);
  check("a part step is BAD SHEET", sheet_check(sheet.bytes, SHEET - 1) == ENGINE_BAD_SHEET);
}

static uint8_t rehearse(size_t sheet_length, size_t world_length, size_t record_length, size_t told_length) {
  return sheet_rehearse(sheet.bytes, sheet_length, world.bytes, world_length, record.bytes, record_length, told.bytes, told_length);
}

static int all_as_expected(void) { return as_expected(&sheet) && as_expected(&world) && as_expected(&record) && as_expected(&told); }

static void rehearsals(const uint8_t *file, size_t length) {
  static const char bad[] = "bad 9\n";
  uint8_t last[ENGINE_WORLD];
  memcpy(last, world.bytes, ENGINE_WORLD);
  fill(&world);
  fill(&record);
  fill(&told);
  check("a rehearsal where told is short is NO ROOM", rehearse(SHEET, ENGINE_WORLD, ENGINE_RECORD, ENGINE_LENGTH - 1) == ENGINE_NO_ROOM);
  check("one in another length is BAD WORLD", rehearse(SHEET, ENGINE_WORLD + 1, ENGINE_RECORD, ENGINE_LENGTH) == ENGINE_BAD_WORLD);
  check("one without room for its record is NO ROOM", rehearse(SHEET, ENGINE_WORLD, LONGEST - 1, ENGINE_LENGTH) == ENGINE_NO_ROOM);
  check("one of a part step is BAD SHEET", rehearse(SHEET - 1, ENGINE_WORLD, sizeof bad - 2, ENGINE_LENGTH) == ENGINE_BAD_SHEET);
  check("they leave every byte", all_as_expected());
  check("of a bad sheet, `bad 9` is the record", rehearse(SHEET - 1, ENGINE_WORLD, sizeof bad - 1, ENGINE_LENGTH) == ENGINE_BAD_SHEET);
  expect(&record, (const uint8_t *)bad, sizeof bad - 1);
  check("and nothing else changes", all_as_expected());
  check("a sheet is rehearsed", rehearse(SHEET, ENGINE_WORLD, LONGEST, ENGINE_LENGTH + 1) == ENGINE_DONE);
  uint8_t counted[ENGINE_LENGTH] = {0, (uint8_t)(length >> 16), (uint8_t)(length >> 8), (uint8_t)length};
  expect(&world, last, ENGINE_WORLD);
  expect(&record, file, length);
  expect(&told, counted, ENGINE_LENGTH);
  check("the last world, the record and its length", all_as_expected());
}

static size_t load(const char *name, uint8_t *to, size_t most) {
  FILE *file = fopen(name, "rb");
  size_t length = file ? fread(to, 1, most, file) : 0;
  if (file) fclose(file);
  return length;
}

int main(int count, char **words) {
  static uint8_t sheet_file[ENGINE_WORLD], record_file[ENGINE_WORLD];
  if (count != 3) {
    fprintf(stderr, "usage: steps SHEET RECORD\n");
    return 2;
  }
  check("the sheet's file", load(words[1], sheet_file, sizeof sheet_file) == SHEET);
  size_t length = load(words[2], record_file, sizeof record_file);
  check("the record's file", length > 0);
  starts();
  steps();
  sheets(sheet_file);
  rehearsals(record_file, length);
  printf("%d passed, %d failed\n", passed, failed);
  return failed > 0;
}
