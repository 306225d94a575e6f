/* What picolibc asks of where it runs (make LIBC=picolibc): standard output and error over call 64, a line at a time; memory for malloc
   between the image and the stack; an exit over call 93. There is no input. */
#include <errno.h>
#include <signal.h>
#include <stdint.h>
#include <stdio.h>
#include <unistd.h>

#ifdef GUARD
char *memory_end = ""; /* set by start.S; no stack is above the heap */
#define MOST memory_end
#else
#define STACK 16384 /* bytes that the heap leaves below the stack pointer */
#define MOST ((char *)__builtin_frame_address(0) - STACK)
#endif

static long call(long number, long first, long second, long third) {
  register long a0 asm("a0") = first, a1 asm("a1") = second, a2 asm("a2") = third, a7 asm("a7") = number;
  asm volatile("ecall" : "+r"(a0) : "r"(a1), "r"(a2), "r"(a7) : "memory");
  return a0;
}

static char line[256];
static unsigned used;

static int flush(FILE *stream) {
  call(64, 1, (long)line, used);
  used = 0;
  return 0;
}

static int put(char byte, FILE *stream) {
  line[used++] = byte;
  return byte == '\n' || used == sizeof line ? flush(stream) : 0;
}

static int get(FILE *stream) { return _FDEV_EOF; }

static FILE terminal = FDEV_SETUP_STREAM(put, get, flush, _FDEV_SETUP_RW);
FILE *const stdin = &terminal, *const stdout = &terminal, *const stderr = &terminal;

void *sbrk(ptrdiff_t more) {
  extern char _end[];
  static char *top = _end;
  char *before = top, *below = MOST;
  if (more > 0 && (below < top || more > below - top)) {
    errno = ENOMEM;
    return (void *)-1;
  }
  top += more;
  return before;
}

/* A signal is only ever raised by the program itself, as abort does. */
int getpid(void) { return 1; }

int kill(pid_t process, int signal) { _exit(128 + signal); }

void _exit(int status) {
  if (used)
    flush(stdout);
  for (;;)
    call(93, status, 0, 0);
}
