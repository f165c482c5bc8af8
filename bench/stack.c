/* cardstate with a painted stack. At each call of card::run the stack below it is painted; at its return the lowest byte that
   is no longer as painted says how many bytes the call needed, its return address included. The greatest goes to standard error,
   after whatever cardstate writes; where card::run is not reached, nothing does. bench/stack gives cardstate's own main the name
   program_main. x86-64 alone: breakpoints stand at both places. */
#define _GNU_SOURCE
#include <signal.h>
#include <stdint.h>
#include <stdio.h>
#include <stdlib.h>
#include <sys/mman.h>
#include <ucontext.h>
#include <unistd.h>

int program_main(int count, char **words);
extern uint8_t card_run[];

enum { DEPTH = 1 << 18, BREAK = 0xcc };

static uint8_t *back, *top, kept_run, kept_back;
static long deepest = -1;

static void stop(const char *said) {
  fprintf(stderr, "stack: %s\n", said);
  _exit(1);
}

/* The paint of a place: no byte that a program is likely to write there. */
static uint8_t paint(const uint8_t *at) { return (uint8_t)(((uintptr_t)at * 0x9e3779b97f4a7c15u) >> 56); }

static void writable(uint8_t *at) {
  uintptr_t page = (uintptr_t)sysconf(_SC_PAGESIZE), first = (uintptr_t)at & ~(page - 1);
  if (mprotect((void *)first, page, PROT_READ | PROT_WRITE | PROT_EXEC))
    stop("the code cannot be written");
}

static void entered(ucontext_t *c) {
  uint8_t *sp = (uint8_t *)c->uc_mcontext.gregs[REG_RSP];
  top = sp + 8;
  back = *(uint8_t **)sp;
  for (uint8_t *p = sp - DEPTH; p < sp; p++)
    *p = paint(p);
  *card_run = kept_run;
  writable(back);
  kept_back = *back;
  *back = BREAK;
  c->uc_mcontext.gregs[REG_RIP] = (greg_t)card_run;
}

static void returned(ucontext_t *c) {
  uint8_t *p = top - 8 - DEPTH;
  while (p < top - 8 && *p == paint(p))
    p++;
  if (top - p > deepest)
    deepest = top - p;
  if (top - p > DEPTH)
    stop("the paint does not reach far enough");
  *back = kept_back;
  *card_run = BREAK;
  c->uc_mcontext.gregs[REG_RIP] = (greg_t)back;
}

static void trapped(int number, siginfo_t *info, void *context) {
  ucontext_t *c = context;
  uint8_t *at = (uint8_t *)c->uc_mcontext.gregs[REG_RIP] - 1;
  (void)number;
  (void)info;
  if (at == card_run)
    entered(c);
  else if (at == back)
    returned(c);
  else
    stop("a breakpoint of no one's");
}

int main(int count, char **words) {
  static uint8_t own[1 << 16];
  stack_t other = {.ss_sp = own, .ss_size = sizeof own};
  struct sigaction action = {.sa_sigaction = trapped, .sa_flags = SA_SIGINFO | SA_ONSTACK};
  if (sigaltstack(&other, 0) || sigaction(SIGTRAP, &action, 0))
    stop("breakpoints cannot be had");
  writable(card_run);
  kept_run = *card_run;
  *card_run = BREAK;
  int status = program_main(count, words);
  if (deepest >= 0)
    fprintf(stderr, "%ld\n", deepest);
  return status;
}
