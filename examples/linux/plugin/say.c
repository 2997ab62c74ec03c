#include "say.h"

#include "qemu_plugin.h"

#include <stdarg.h>
#include <stdio.h>

static char tag = '@';
static void (*waiting)(void);

int say_tag(char character)
{
	tag = character;
	return character > ' ';
}

void say_later(void (*call)(void))
{
	waiting = call;
}

void say_waiting(void)
{
	void (*call)(void) = waiting;

	waiting = NULL;
	if (call)
		call();
}

void say(const char *form, ...)
{
	char text[1024];
	va_list rest;

	say_waiting();
	va_start(rest, form);
	vsnprintf(text, sizeof text, form, rest);
	va_end(rest);
	text[0] = tag;
	qemu_plugin_outs(text);
}
