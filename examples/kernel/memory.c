/* What the compiler and the library ask of whoever links them. */
#include <stddef.h>

void *memcpy(void *restrict to, const void *restrict from, size_t length)
{
	void *at = to;

	__asm__ volatile("rep movsb" : "+D"(at), "+S"(from), "+c"(length) : : "memory");
	return to;
}

void *memmove(void *to, const void *from, size_t length)
{
	char *back = (char *)to + length;
	const char *last = (const char *)from + length;

	if ((size_t)((char *)to - (const char *)from) >= length)
		return memcpy(to, from, length);
	while (length-- > 0)
		*--back = *--last;
	return to;
}

void *memset(void *to, int byte, size_t length)
{
	void *at = to;

	__asm__ volatile("rep stosb" : "+D"(at), "+c"(length) : "a"(byte) : "memory");
	return to;
}
