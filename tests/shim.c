/*
 * Loaded before the C library (LD_PRELOAD), so that the program meets what an operating system may do:
 *
 *     FAIL_ALLOC=N    the Nth request for memory is refused; then a byte is written to descriptor 9
 *     FAIL_THREAD=N   the Nth thread is refused; then a byte is written to descriptor 9
 *     INTERRUPT=FD    every read of and write to this descriptor is interrupted
 *     HALF=FD         every other one is interrupted, and each of the others moves one byte
 *     LEFT=1          at the end descriptor 7 gets the number of threads made, and of those that don't end within a second
 */
#define _GNU_SOURCE
#include <dlfcn.h>
#include <errno.h>
#include <pthread.h>
#include <stdatomic.h>
#include <stdio.h>
#include <stdlib.h>
#include <sys/syscall.h>
#include <unistd.h>

extern void *__libc_malloc(size_t);
extern void *__libc_realloc(void *, size_t);

static long number(const char *name)
{
	const char *text = getenv(name);
	return (text == NULL ? -1 : atol(text));
}

static int is_refused(atomic_long *asked, const char *name)
{
	if (++*asked != number(name))
		return (0);
	syscall(SYS_write, 9, "!", 1);
	return (1);
}

static int refused(void)
{
	static atomic_long asked;

	return (is_refused(&asked, "FAIL_ALLOC"));
}

void *malloc(size_t size)
{
	return (refused() ? NULL : __libc_malloc(size));
}

void *realloc(void *block, size_t size)
{
	return (refused() ? NULL : __libc_realloc(block, size));
}

static ssize_t move(long call, int fd, void *buffer, size_t size)
{
	static long half = -2, interrupt = -2;
	static unsigned turns;

	if (half == -2) {
		half = number("HALF");
		interrupt = number("INTERRUPT");
	}
	if (fd == interrupt || (fd == half && turns++ % 2 == 0)) {
		errno = EINTR;
		return (-1);
	}
	if (fd == half && size > 1)
		size = 1;
	return (syscall(call, fd, buffer, size));
}

ssize_t read(int fd, void *buffer, size_t size)
{
	return (move(SYS_read, fd, buffer, size));
}

ssize_t write(int fd, const void *buffer, size_t size)
{
	return (move(SYS_write, fd, (void *)buffer, size));
}

ssize_t __write(int fd, const void *buffer, size_t size)
{
	return (write(fd, buffer, size));
}

static atomic_long made, ended;

struct work {
	void *(*start)(void *);
	void *with;
};

static void *work(void *given)
{
	struct work own = *(struct work *)given;
	void *result;

	free(given);
	result = own.start(own.with);
	ended++;
	return (result);
}

int pthread_create(pthread_t *thread, const pthread_attr_t *how, void *(*start)(void *), void *with)
{
	static atomic_long asked;
	int (*next)(pthread_t *, const pthread_attr_t *, void *(*)(void *), void *) = dlsym(RTLD_NEXT, "pthread_create");
	struct work *own;
	int status;

	if (is_refused(&asked, "FAIL_THREAD"))
		return (EAGAIN);
	own = __libc_malloc(sizeof (*own));
	*own = (struct work){ start, with };
	status = next(thread, how, work, own);
	if (status == 0)
		made++;
	return (status);
}

void _exit(int status)
{
	char text[64];
	int turns;

	if (number("LEFT") == 1) {
		for (turns = 0; turns < 1000 && made != ended; turns++)
			usleep(1000);
		syscall(SYS_write, 7, text, snprintf(text, sizeof (text), "%ld made, %ld left\n", made, made - ended));
	}
	for (;;)
		syscall(SYS_exit_group, status);
}
