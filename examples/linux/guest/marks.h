/* Words to the plugin (plugin/watch.c): stores to a page of marks. */
#ifndef MARKS_H
#define MARKS_H

#include <stdint.h>

enum mark { MARK_NONE = 0, MARK_NEXT = 1, MARK_END = 2, MARK_WHEN_EMPTY = 3, MARK_HERE = 4, MARK_AGAIN = 5, MARK_CHILD = 6 };
enum later_mark { MARK_LATER = 0x100, MARK_CHOSEN = 0x200 };

/* The page, and a word; each process that says one has the page. */
void map_marks(void);
void say(uint64_t value);

/* The address space that the next fork makes is watched too, by the second copy of the plugin. */
void watch_child(void);

#endif
