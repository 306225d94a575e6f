/* What a program makes public on purpose. Bytes that are written to stream 2 may be known from then on, where the question names that stream
   as a public one (docs/secrets.md, "Make something public"): a branch, an address or a division may be made of them, behind the call.

   What to publish is the whole object that is used from then on, and the object itself:
   - the bytes lose their marks in memory alone, so the object has to be loaded anew behind the call. That memory is clobbered sees to it;
   - of an `int` of which one byte is published three stay secret, and so does what is made of all four;
   - a copy that was made before stays secret, in a register or elsewhere in memory, and so does what was computed of the object before.

   A range that leaves memory isn't written, and stays secret. */
static inline void publish(const void *bytes, unsigned count) {
  const unsigned char *at = bytes;
  while (count) {
    register long a0 asm("a0") = 2;
    register const unsigned char *a1 asm("a1") = at;
    register long a2 asm("a2") = count;
    register long a7 asm("a7") = 64;
    asm volatile("ecall" : "+r"(a0) : "r"(a1), "r"(a2), "r"(a7) : "memory");
    if (a0 <= 0)
      return;
    at += a0; /* a call puts out 1024 bytes at most */
    count -= a0;
  }
}
