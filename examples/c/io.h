/* Output, over system call 64. C++ includes it as C does. */

#ifdef __cplusplus
extern "C" {
#endif

/* Puts out bytes, 1024 a call at most: the answer is how many. */
int write(int stream, const void *bytes, unsigned count);

/* Puts a byte into a line, which goes out with a newline, or when it is full. One call a line makes one `out` line of the report. */
int putchar(int byte);

/* Puts a text and a newline. */
int puts(const char *text);

#ifdef __cplusplus
}
#endif
