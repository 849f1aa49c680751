/* Spoils reads and writes of the standard streams. Where COUNT is set, it says on standard error at the program's end how often
   each stream was read or written. bench/calls loads it before the C library; variables say what it does:

     STREAM     the stream whose calls fail, 0, 1 or 2
     CALL       which of them fails, counted from 1; 0 for every other one, beginning with the first
     ERRNO      the fault that it meets; 0 for a call that moves no byte and meets none
     ONE        where it is set, each call on any of the three streams moves a byte at most

   Calls on other files are left alone. A program with threads ends by _exit, which runs no destructor. */
#include "plain.h"

#define STREAMS 3

static ssize_t (*next_read)(int, void *, size_t);
static ssize_t (*next_write)(int, const void *, size_t);
static void (*next_exit)(int);
static long calls[STREAMS], spoiled_call;
static int spoiled_stream = -1, fault, is_one;

static long number(const char *name, long otherwise) {
  const char *text = getenv(name);
  return text ? atol(text) : otherwise;
}

__attribute__((constructor)) static void find_next(void) {
  spoiled_stream = (int)number("STREAM", -1);
  spoiled_call = number("CALL", 0);
  fault = (int)number("ERRNO", 0);
  is_one = getenv("ONE") != NULL;
  next_write = (ssize_t(*)(int, const void *, size_t))dlsym(RTLD_NEXT, "write");
  next_exit = (void (*)(int))dlsym(RTLD_NEXT, "_exit");
  next_read = (ssize_t(*)(int, void *, size_t))dlsym(RTLD_NEXT, "read");
}

/* Counts a call, and says whether it is spoiled. */
static int is_spoiled(int stream) {
  if (!next_read) find_next();
  if (stream < 0 || stream >= STREAMS) return 0;
  long call = __atomic_add_fetch(&calls[stream], 1, __ATOMIC_RELAXED);
  if (stream != spoiled_stream) return 0;
  return spoiled_call ? call == spoiled_call : call % 2 == 1;
}

static ssize_t spoiled(void) {
  errno = fault;
  return fault ? -1 : 0;
}

static size_t most(int stream, size_t size) { return is_one && stream < STREAMS && size > 1 ? 1 : size; }

ssize_t read(int stream, void *to, size_t size) {
  return is_spoiled(stream) ? spoiled() : next_read(stream, to, most(stream, size));
}

ssize_t write(int stream, const void *from, size_t size) {
  return is_spoiled(stream) ? spoiled() : next_write(stream, from, most(stream, size));
}

__attribute__((destructor)) static void tell(void) {
  if (getenv("COUNT")) dprintf(STDERR_FILENO, "%ld %ld %ld\n", calls[0], calls[1], calls[2]);
}

void _exit(int status) {
  tell();
  if (!next_exit) find_next();
  next_exit(status);
  abort();
}
