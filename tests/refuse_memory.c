/* Lets one request for memory of a program fail, so that a script can refuse each in turn: the one with the number that
   REFUSED_REQUEST gives, counted from 1. The file that REFUSED_TOLD names is made if one was refused. Loaded before
   a program by LD_PRELOAD. */
#define _GNU_SOURCE
#include <dlfcn.h>
#include <errno.h>
#include <fcntl.h>
#include <stdlib.h>
#include <unistd.h>

/* `next`: the C library's function of a name. */
#define NEXT(name) \
	static __typeof__(name) *next; \
	if (!next) \
		next = (__typeof__(name) *)dlsym(RTLD_NEXT, #name)

static int refuses(void)
{
	static long requests;
	const char *number = getenv("REFUSED_REQUEST");
	const char *told = getenv("REFUSED_TOLD");

	if (!number || !told || ++requests != atol(number))
		return 0;
	close(open(told, O_WRONLY | O_CREAT, 0600));
	errno = ENOMEM;
	return 1;
}

void *malloc(size_t size)
{
	NEXT(malloc);
	return refuses() ? NULL : next(size);
}

void *calloc(size_t count, size_t size)
{
	NEXT(calloc);
	return refuses() ? NULL : next(count, size);
}

void *realloc(void *block, size_t size)
{
	NEXT(realloc);
	return refuses() ? NULL : next(block, size);
}

void *aligned_alloc(size_t alignment, size_t size)
{
	NEXT(aligned_alloc);
	return refuses() ? NULL : next(alignment, size);
}

int posix_memalign(void **block, size_t alignment, size_t size)
{
	NEXT(posix_memalign);
	return refuses() ? ENOMEM : next(block, alignment, size);
}
