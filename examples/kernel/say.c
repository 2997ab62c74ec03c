#include "say.h"

#include "leave.h"
#include "machine.h"

#include <stdarg.h>

static void put_some(const char *text, uint32_t length)
{
	machine_send(0, (const uint8_t *)text, length);
}

static void put(const char *text)
{
	uint32_t length = 0;

	while (text[length] != 0)
		length++;
	put_some(text, length);
}

static void put_number(uint64_t number, unsigned base)
{
	char text[21], *at = text + 20;

	*at = 0;
	do {
		*--at = "0123456789abcdef"[number % base];
		number /= base;
	} while (number != 0);
	put(at);
}

void say(const char *format, ...)
{
	va_list rest;

	va_start(rest, format);
	for (; *format != 0; format++) {
		if (*format != '%') {
			put_some(format, 1);
			continue;
		}
		format++;
		if (*format == 's') {
			put(va_arg(rest, const char *));
		} else {
			put(*format == 'x' ? "0x" : "");
			put_number(va_arg(rest, uint64_t), *format == 'x' ? 16 : 10);
		}
	}
	va_end(rest);
}

_Noreturn void stop(const char *what, uint64_t number)
{
	say("stopped: %s %x\n", what, number);
	machine_leave(LEAVE_STOPPED);
}
