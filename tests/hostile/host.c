/* Stands before the C library of a program, and changes what memory and streams give it. The environment says how:
   REFUSE=N       the Nth growth of memory is refused;
   REFUSE_FROM=N  so are all that come after it;
   READ_FAIL=N    the Nth read fails, and READ_MOST=N says how many bytes a read gives at most;
   WRITE_FAIL=N   the Nth write fails, and WRITE_MOST=N says how many bytes a write takes at most;
   ERROR=N        they fail with this error; without it, with one of input and output;
   CALLS=FILE     at the end the numbers of growths, reads and writes are written there, and the greatest memory in KiB. */
#define _GNU_SOURCE
#include <errno.h>
#include <stdio.h>
#include <stdlib.h>
#include <sys/syscall.h>
#include <unistd.h>

extern void *__libc_malloc(size_t);
extern void *__libc_realloc(void *, size_t);

static unsigned long growths, reads, writes;

static unsigned long number(const char *name)
{
	const char *text = getenv(name);
	return text == NULL ? 0 : strtoul(text, NULL, 10);
}

static int is_refused(void)
{
	unsigned long from = number("REFUSE_FROM");
	unsigned long count = __atomic_add_fetch(&growths, 1, __ATOMIC_SEQ_CST);

	return count == number("REFUSE") || (from != 0 && from <= count);
}

void *malloc(size_t size)
{
	if (is_refused()) {
		errno = ENOMEM;
		return NULL;
	}
	return __libc_malloc(size);
}

void *realloc(void *old, size_t size)
{
	if (is_refused()) {
		errno = ENOMEM;
		return NULL;
	}
	return __libc_realloc(old, size);
}

static ssize_t failed(void)
{
	unsigned long error = number("ERROR");
	errno = error == 0 ? EIO : (int)error;
	return -1;
}

static size_t at_most(size_t count, const char *name)
{
	size_t most = number(name);
	return most != 0 && most < count ? most : count;
}

ssize_t read(int file, void *bytes, size_t count)
{
	if (++reads == number("READ_FAIL"))
		return failed();
	return syscall(SYS_read, file, bytes, at_most(count, "READ_MOST"));
}

ssize_t write(int file, const void *bytes, size_t count)
{
	if (++writes == number("WRITE_FAIL"))
		return failed();
	return syscall(SYS_write, file, bytes, at_most(count, "WRITE_MOST"));
}

/* The greatest memory of this program alone: what the system says when it has ended is no less than that of what started it. */
static long greatest_memory(void)
{
	char line[200];
	long found = 0;
	FILE *file = fopen("/proc/self/status", "r");

	while (file != NULL && fgets(line, sizeof line, file) != NULL)
		if (sscanf(line, "VmHWM: %ld", &found) == 1)
			break;
	if (file != NULL)
		fclose(file);
	return found;
}

__attribute__((destructor)) static void tell(void)
{
	const char *name = getenv("CALLS");
	unsigned long counts[] = {growths, reads, writes};
	FILE *file;

	if (name == NULL || (file = fopen(name, "w")) == NULL)
		return;
	fprintf(file, "%lu %lu %lu %ld\n", counts[0], counts[1], counts[2], greatest_memory());
	fclose(file);
}

/* A program that may have threads ends so, and no destructor is called. */
__attribute__((noreturn)) void _exit(int status)
{
	tell();
	for (;;)
		syscall(SYS_exit_group, status);
}
