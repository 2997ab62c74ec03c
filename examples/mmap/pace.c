#define _GNU_SOURCE
#include "pace.h"

#include <time.h>

#define LONGEST 1.0 /* seconds that a segment may take, unless it is the shortest */

static double begun, ends;
static uint64_t recorded;    /* events */
static uint32_t least, most; /* of a segment */

double pace_now(void)
{
	struct timespec time;

	clock_gettime(CLOCK_MONOTONIC, &time);
	return (double)time.tv_sec + (double)time.tv_nsec / 1e9;
}

void pace_begin(double end, uint32_t few, uint32_t many)
{
	begun = pace_now();
	ends = end;
	least = few < many ? few : many;
	most = many;
}

void pace_recorded(uint32_t events) { recorded += events; }

/*
 * The last segment is judged while the next one is recorded, and then the next one is. An event takes the one or the other so many seconds
 * at most as the events that are judged took on average.
 */
uint32_t pace_events(uint64_t judged)
{
	const double now = pace_now(), each = judged > 0 ? (now - begun) / (double)judged : 0, last = (double)(recorded - judged);
	double room, fit;

	if (!(ends > 0))
		return most;
	if (judged == 0)
		return now < ends || recorded == 0 ? least : 0;
	room = (ends - now) / each;
	fit = room / 2 > last ? room / 2 : room - last;
	if (fit < least)
		return 0;
	if (fit > LONGEST / each)
		fit = LONGEST / each;
	return fit < least ? least : fit > most ? most : (uint32_t)fit;
}
