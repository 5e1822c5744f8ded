/*
 * Runs single instructions for processor.py. Its input is the size and the bytes of a mapped file, and requests: the
 * address of an instruction, that of the next one, the target of a jump, or again the next one, and a state. For each
 * request it writes the state after the instruction.
 */
#include <stdint.h>
#include <stdio.h>
#include <stdlib.h>
#include <string.h>
#include <sys/mman.h>

#define TEXT ((unsigned char *)0x4000000)
#define SCRATCH ((unsigned char *)0x8000000)
enum { SCRATCH_SIZE = 1 << 12 };
#ifdef __x86_64__
enum { REGISTERS = 16, JUMP_SIZE = 5 };
#else
enum { REGISTERS = 32, JUMP_SIZE = 4 };
extern unsigned char jump_to_code[]; /* in enter; an indirect jump would need a register */
#endif

struct state {
  uint64_t registers[REGISTERS];
  unsigned char vectors[512];
  uint64_t flags, is_taken;
  unsigned char scratch[SCRATCH_SIZE];
};

static struct {
  uint64_t address, next, target;
  struct state state;
} request;

/* Runs an instruction, which a jump to one of the two labels follows. */
void enter(struct state *state, unsigned char *code);
extern unsigned char not_taken[], taken[];

static void patch(unsigned char *code, const unsigned char *bytes) {
  memcpy(code, bytes, JUMP_SIZE);
  __builtin___clear_cache((char *)code, (char *)code + JUMP_SIZE);
}

static void patch_jump(unsigned char *from, const unsigned char *to) {
#ifdef __x86_64__
  int32_t displacement = (int32_t)(to - from - JUMP_SIZE);
  unsigned char jump[JUMP_SIZE] = {0xE9}; /* jmp rel32 */
  memcpy(jump + 1, &displacement, 4);
#else
  uint32_t code = 0x14000000 | ((uint32_t)((to - from) / 4) & 0x3FFFFFF); /* b imm26 */
  unsigned char jump[JUMP_SIZE];
  memcpy(jump, &code, 4);
#endif
  patch(from, jump);
}

static void map(void *start, size_t size, int protection) {
  if (mmap(start, size, protection, MAP_PRIVATE | MAP_ANONYMOUS | MAP_FIXED, -1, 0) != start)
    exit(1);
}

int main(void) {
  uint64_t size;
  if (fread(&size, sizeof size, 1, stdin) != 1)
    return 1;
  map(TEXT, size + 4096, PROT_READ | PROT_WRITE | PROT_EXEC);
  map(SCRATCH, SCRATCH_SIZE, PROT_READ | PROT_WRITE);
  if (fread(TEXT, 1, size, stdin) != size)
    return 1;
  while (fread(&request, sizeof request, 1, stdin) == 1) {
    unsigned char *next = TEXT + request.next;
    unsigned char *target = TEXT + request.target;
    unsigned char next_code[JUMP_SIZE], target_code[JUMP_SIZE];
    memcpy(next_code, next, JUMP_SIZE);
    memcpy(target_code, target, JUMP_SIZE);
    patch_jump(target, taken);
    patch_jump(next, not_taken);
#ifndef __x86_64__
    patch_jump(jump_to_code, TEXT + request.address);
#endif
    memcpy(SCRATCH, request.state.scratch, SCRATCH_SIZE);
    enter(&request.state, TEXT + request.address);
    memcpy(request.state.scratch, SCRATCH, SCRATCH_SIZE);
    patch(target, target_code);
    patch(next, next_code);
    if (fwrite(&request.state, sizeof request.state, 1, stdout) != 1 || fflush(stdout))
      return 1;
  }
  return 0;
}
