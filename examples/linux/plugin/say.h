/* A line of QEMU's log, where the exceptions are that QEMU logs itself: so all of it is in one order. */
#ifndef SAY_H
#define SAY_H

/* All forms begin with @; from here on lines begin with this character instead. Whether it is one that can be seen. */
int say_tag(char character);

void say(const char *form, ...) __attribute__((format(printf, 1, 2)));

/* Before the next line this is called, once, so that it says another one. */
void say_later(void (*call)(void));

/* What waits for the next line is said now. */
void say_waiting(void);

#endif
