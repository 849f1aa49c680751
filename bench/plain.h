/* What refuse.c and calls.c use of the C library on Linux for x86-64, so that a compiler without the C library's headers makes them. */
typedef unsigned long size_t;
typedef long ssize_t;

#define NULL ((void *)0)
#define RTLD_NEXT ((void *)-1)
#define STDERR_FILENO 2
#define ENOMEM 12
#define errno (*__errno_location())

int *__errno_location(void);
void *dlsym(void *, const char *);
char *getenv(const char *);
long atol(const char *);
int dprintf(int, const char *, ...);
void abort(void) __attribute__((noreturn));
