/* What the victims share. */
typedef unsigned char u8;
typedef unsigned int u32;

/* The secret: each victim is linked twice, with secret_a.c and with secret_b.c. It stands in a file of its own, so that the compiler
   doesn't know it. */
extern u8 key[16];

/* Waits until nothing is in flight: a system call is taken into an empty window alone. FENCE does nothing on this machine. 1000 is no
   call, so the answer is -38, and nothing else happens. */
static inline void barrier(void) {
  register long answer asm("a0") = 0;
  register long number asm("a7") = 1000;
  asm volatile("ecall" : "+r"(answer) : "r"(number) : "memory");
}
