/*
 * refuse: the allocation of this number fails, by LD_PRELOAD=refuse.so REFUSE=N, and then the file MARK is made. All others are made.
 * cc -O2 -shared -fPIC -o refuse.so refuse.c -ldl
 */
#define _GNU_SOURCE
#include <dlfcn.h>
#include <errno.h>
#include <fcntl.h>
#include <stdlib.h>
#include <unistd.h>

static unsigned long made, refused;

static int is_refused(void)
{
	if (!made) {
		const char *number = getenv("REFUSE");

		refused = number ? strtoul(number, NULL, 10) : 0;
	}
	if (++made != refused)
		return 0;
	close(open(getenv("MARK"), O_CREAT | O_WRONLY, 0600));
	errno = ENOMEM;
	return 1;
}

void *malloc(size_t n)
{
	static void *(*next)(size_t);

	if (!next)
		next = (void *(*)(size_t))dlsym(RTLD_NEXT, "malloc");
	return is_refused() ? NULL : next(n);
}

void *realloc(void *p, size_t n)
{
	static void *(*next)(void *, size_t);

	if (!next)
		next = (void *(*)(void *, size_t))dlsym(RTLD_NEXT, "realloc");
	return is_refused() ? NULL : next(p, n);
}

int posix_memalign(void **p, size_t alignment, size_t n)
{
	static int (*next)(void **, size_t, size_t);

	if (!next)
		next = (int (*)(void **, size_t, size_t))dlsym(RTLD_NEXT, "posix_memalign");
	return is_refused() ? ENOMEM : next(p, alignment, n);
}

void *aligned_alloc(size_t alignment, size_t n)
{
	static void *(*next)(size_t, size_t);

	if (!next)
		next = (void *(*)(size_t, size_t))dlsym(RTLD_NEXT, "aligned_alloc");
	return is_refused() ? NULL : next(alignment, n);
}
