"""What tests/recorders has the recorders do, call by call: lines for recorders/tests/calls.c, programs in C, and chains as such lines."""
import model_auditor as model
import model_chains

KERNEL = """
typedef unsigned char uint8_t;
typedef unsigned short uint16_t;
typedef unsigned uint32_t;
typedef unsigned long uint64_t;
typedef struct { int counter; } atomic_t;
static inline void atomic_set(atomic_t *v, int i) { __atomic_store_n(&v->counter, i, __ATOMIC_RELAXED); }
static inline int atomic_read(atomic_t *v) { return __atomic_load_n(&v->counter, __ATOMIC_RELAXED); }
static inline int atomic_fetch_add(int i, atomic_t *v) { return __atomic_fetch_add(&v->counter, i, __ATOMIC_SEQ_CST); }
static inline int atomic_cmpxchg(atomic_t *v, int from, int to)
{
	__atomic_compare_exchange_n(&v->counter, &from, to, 0, __ATOMIC_SEQ_CST, __ATOMIC_SEQ_CST);
	return from;
}
"""

# 0 where a trace whose last event is stamped and not written yet isn't finished, and is once it is written.
NOT_WRITTEN = """
static uint64_t events[3][3], words[512];
static nrvs_frame frames[1];
static int lend(void *context, uint64_t number, const uint64_t **lent)
{
	*lent = number == 1 ? words : (const uint64_t *)context;
	return 0;
}
static int write(void *context, const uint8_t *bytes, uint32_t length) { return context != 0 || !bytes || length > 512; }
int main(void)
{
	nrvs_config config = { .levels = 4, .replicas = 1, .threads = 1, .tables = 1,
		.events = events, .event_room = 3, .frames = frames, .frame_room = 1 };
	uint32_t call, stamp;
	if (nrvs_begin(&trace, &config) || nrvs_call(&trace, 0, 0, nrvs_resolve(5), &call))
		return 1;
	if (nrvs_reply(&trace, call, 0, nrvs_not_mapped()) || nrvs_stamp(&trace, &stamp) || stamp != 2)
		return 2;
	if (nrvs_dump(&trace, 0, 0, 1, lend, 0) || nrvs_finish(&trace, write, 0) != NRVS_NOT_WRITTEN)
		return 3;
	events[2][0] = events[0][0], events[2][1] = events[2][2] = 0;
	return nrvs_finish(&trace, write, 0) == NRVS_OK ? 0 : 4;
}
"""

# Lines for recorders/tests/calls.c, each with what it has to be answered.
REFUSALS = """
    begin 3 1 1 4 4 1 4 = bad configuration
    begin 6 1 1 4 4 1 4 = bad configuration
    begin 4 0 1 4 4 1 4 = bad configuration
    begin 4 5 1 4 4 1 4 = bad configuration
    begin 4 1 0 4 4 1 4 = bad configuration
    begin 4 1 65 4 4 1 4 = bad configuration
    begin 4 1 1 0 4 1 4 = bad configuration
    begin 4 1 1 4097 4 1 4 = bad configuration
    begin 4 1 1 4 131073 1 4 = bad configuration
    begin 4 1 1 4 4 65537 4 = bad configuration
    begin 4 2 3 9 7 3 5 = ok
    place 0 0 = no such call
    reply 0 0 0 0 0 0 = no such call
    call 2 0 0 0 7 0x400000 0x1000 = bad event
    call 0 3 0 0 7 0x400000 0x1000 = bad event
    call 0 0 5 0 7 0x400000 0x1000 = bad event
    call 0 0 4 0 2 0x400000 0 = bad event
    call 0 0 4 3 0 0x400000 0 = bad event
    call 0 0 4 0 0 0x800000000000 0 = bad event
    call 0 0 0 3 7 0x400000 0x1000 = bad event
    call 0 0 0 0 8 0x400000 0x1000 = bad event
    call 0 0 0 0 7 0x800000000000 0x1000 = bad event
    call 0 0 0 0 7 0xffff7ffffffff000 0x1000 = bad event
    call 0 0 0 0 7 0x400800 0x1000 = bad event
    call 0 0 0 1 7 0x401000 0x200000 = bad event
    call 0 0 0 1 7 0x400000 0x201000 = bad event
    call 0 0 0 2 7 0x40000000 0x20000000 = bad event
    call 0 0 0 0 7 0x400000 0x8000000000000 = bad event
    call 0 0 0 2 7 0x40000000 0x8000000000000 = bad event
    call 0 0 1 0 0 0x400001 0 = bad event
    call 0 0 2 0 1 0x400800 0 = bad event
    call 0 0 3 0 0 0x7ffffffffffff 0 = bad event
    call 0 0 0 0 7 0x400000 0x7fffffffff000 = ok 0
    call 0 1 1 2 7 0x600000 0x1000 = ok 1
    reply 0 0 10 0 0 0 = bad event
    reply 0 0 0 3 0 0 = bad event
    reply 0 0 0 0 8 0 = bad event
    reply 0xffffffff 0 0 0 0 0 = no such call
    reply 2 0 0 0 0 0 = no such call
    place 0 0xffffffff = no such call
    place 3 0 = log full
    place 0xffffffff 0 = log full
    place 1 0 = ok
    place 1 0 = place taken
    finish 1000000 = replica not dumped
    word 1 0 0x2007
    word 2 0 0x3007
    word 3 2 0x4007
    word 4 0 0x7fffffffff007
    word 11 511 0x8000000000000
    broken 9
    word 12 0 0x9007
    dump 2 0 1 = bad replica
    dump 0 0 0x10000000000 = bad frame number
    dump 0 0 9 = frame failed
    dump 0 0 12 = frame failed
    dump 0 0 77 = frame failed
    dump_frame 0 1 = bad replica
    dump 1 0 11 = ok
    dump 1 0 11 = bad replica
    dump 0 0 12 = frame failed
    dump_frame 0 1 = bad replica
    dump_frame 1 11 = ok
    dump_frame 1 9 = frame failed
    dump_frame 1 0x10000000000 = bad frame number
    dump_frame 1 77 = ok
    dump 0 2 1 = ok
    dump_frame 1 11 = bad replica
    dump_frame 0 4 = ok
    dump_frame 0 12 = frames full
    finish 1000000 = gap in the log
    reply 0 1 0 2 7 0x1000 = ok
    call 0 2 3 2 7 0x400123 0x1000 = ok 3
    place 0 1 = ok
    finish 1000000 = ok
    reply 3 2 7 0 7 0x7fffffffff123 = ok
    call 0 2 3 0 0 0x400fff 0 = ok 5
    reply 5 2 7 0 7 0x7ffffffffffff = ok
    call 0 2 3 0 0 0 0 = events full
    reply 1 0 4 0 0 0 = events full
    finish 1000000 = ok
"""


CHAIN_REFUSALS = """
    begin 4 1 1 4 4 1 9
    start 1 = no start here
    call 0 0 5 0 0 0x400123 0 = bad event
    call 0 0 6 0 0 0 0x1000 = bad event
    restart = no segment of this chain
    next = no segment of this chain
    spare 4 1 1 4 4 1 9
    next = no segment of this chain
    chain 4 1 0 4 4 1 4 = bad configuration
    chain 4 1 4 0 4 1 4 = bad configuration
    chain 4 0 4 4 4 1 4 = bad configuration
    chain 4 1 1 4 131073 1 4 = bad configuration
    chain 4 1 65535 65535 9 3 9
    events = ok 0
    restart = ok
    spare 4 1 65535 65534 4 1 9
    next = no segment of this chain
    spare 4 1 65534 65535 4 1 9
    next = no segment of this chain
    spare 4 2 65535 65535 4 1 9
    next = no segment of this chain
    spare 5 1 65535 65535 4 1 9
    next = no segment of this chain
    spare 4 1 65535 65535 4 1 9
    word 1 0 0x2007
    word 2 0 0x3007
    word 3 2 0x4007
    word 4 0 0x8000000000001003
    broken 9
    word 12 0 0x9007
    start 0x10000000000 = bad frame number
    start 9 = frame failed
    start 12 = frame failed
    start 77 = frame failed
    start 1
    start 1 = no start here
    dump_frame 0 1 = bad replica
    call 0 65535 5 0 0 0x400123 0 = bad event
    call 0 0 5 3 0 0x400123 0 = bad event
    call 0 0 5 0 2 0x400123 0 = bad event
    call 0 0 7 0 0 0x400123 0 = bad event
    call 0 65535 6 0 0 0 0 = bad event
    call 0 0 6 3 0 0 0 = bad event
    call 0 0 6 0 0 0 0x1001 = bad event
    call 0 0 6 1 0 0 0x1000 = bad event
    call 0 0 6 2 0 0 0x8000000000000 = bad event
    call 0 0 5 0 0 0x800000000000 0 = bad event
    call 0 65534 5 1 0 0x400123 0x1000 = ok 0
    start 1 = no start here
    restart = call open
    next = call open
    call 0 7 5 2 1 0x400123 0 = ok 1
    reply 0 0 8 2 7 0x1123
    restart = call open
    reply 1 0 9 2 7 21
    events = ok 4
    restart = segment not finished
    finish 20 = write failed
    restart = segment not finished
    next
    swap
    dump 0 0 1
    dump_frame 0 11
    swap
    word 3 2 0
    word 2 0 0
    word 1 0 0
    dump 0 1 1
    start 1 = no start here
    call 0 0 1 0 0 0x400000 0 = ok 0
    place 0 0
    reply 0 0 3 0 1 0x1000
    next = segment not finished
    swap
    finish 1000000
    finish 0 = write failed
    swap
    finish 1000000
    call 0 0 3 0 0 0x400000 0 = ok 2
    restart = call open
    reply 2 1 4 0 0 0
    restart = segment not finished
    swap
    restart
    swap
    spare 4 1 65535 65535 8 1 2
    next
    word 1 511 0x2007
    start 1
    restart
    dump 0 0 1
    dump_frame 0 12 = frames full
    word 1 511 0
    restart
    start 1
    dump 0 0 1
    finish 1000000
"""


def with_answers(lines):
    """Lines that say nothing of their answer are answered ok."""
    return "\n".join(line if " = " in line else line + " = ok" for line in lines.strip().split("\n"))


def random_lines(draw):
    """Calls on a recorder, most of which make sense."""
    levels, replicas, threads = draw.choice([4, 4, 5]), draw.randint(1, 4), draw.randint(1, 4)
    room = draw.choice([0, 3, 40, 200])
    kinds, codes = draw.choice([(range(4), range(8)), (range(7), range(8)), (range(4), range(10)), (range(7), range(10))])
    lines = [f"begin {levels} {replicas} {threads} {draw.randint(1, 4096)} {room} {draw.choice([0, 5, 64])} {draw.choice([2, 8, 64, 64])}"]
    lines += [f"word {frame} 511 0" for frame in range(1, 7)]
    for _ in range(draw.randint(0, 40)):
        rest = draw.choice([7, 7, 7, 0x87, 0x8000000000000001, 0])
        lines.append(f"word {draw.randint(1, 6)} {draw.choice([0, 1, 256, 511])} {draw.randint(1, 7) * 4096 + rest}")
    lines.append("call 0 0 3 0 0 0 0")
    next_place = 0
    for _ in range(draw.randint(0, 120)):
        address = draw.choice([0x400000, 0x600000, 0x40000000, 0x400123, 0xffff800000000000, 0x800000000000, 0xff00000000000000])
        lines.append(draw.choice([
            f"call {draw.randint(0, replicas)} {draw.randint(0, threads)} {draw.choice(kinds)} {draw.randint(0, 3)} "
            f"{draw.randint(0, 8)} {address} {draw.choice([0x1000, 0x200000, 0x40000000, 1 << 51])}",
            f"place {draw.choice([next_place] * 9 + [0])} 0",
            f"reply {draw.randint(0, 20)} {draw.randint(0, 9)} {draw.choice(codes)} {draw.randint(0, 2)} {draw.randint(0, 7)} "
            f"{draw.getrandbits(64)}"]))
        next_place += lines[-1] == f"place {next_place} 0"
    for replica in draw.sample(range(replicas), replicas):
        lines.append(f"dump {replica} {draw.randint(0, 9)} {draw.randint(1, 6)}")
        lines += [f"dump_frame {draw.randint(0, replicas)} {draw.randint(1, 9)}" for _ in range(draw.randint(0, 3))]
    return lines + ["finish 100000000"]


def overlapping(events):
    """How many calls are open at the same time as another one."""
    is_open, meet = set(), set()
    for i, each in enumerate(events):
        if isinstance(each, model.Reply):
            is_open.discard(each.call)
            continue
        if is_open:
            meet |= is_open | {i}
        is_open.add(i)
    return len(meet)


def segments_of(data):
    """The segments of a chain; none where one of them has a format fault."""
    segments, position, before = [], 0, None
    while position < len(data):
        try:
            segment = model_chains.read_segment(data, position, before)
        except model.Fault:
            return []
        segments.append(segment)
        position, before = segment.ends, segment.trace
    return segments


def is_recordable(segment):
    """The recorder copies just the frames that are reached, and a later segment begins where no call is open."""
    trace = segment.trace
    replied = {each.call for each in trace.events if isinstance(each, model.Reply)}
    calls = {i for i, each in enumerate(trace.events) if isinstance(each, model.Call)}
    return replied == calls and all(reached(dump, trace.levels) == dump.frames.keys() for dump in [segment.start, *trace.dumps] if dump)


def reached(dump, levels):
    found, above = set(), {dump.root}
    for level in range(levels, 0, -1):
        found |= above
        words = [word for number in above for word in dump.frames.get(number, [])]
        above = {word >> 12 & (1 << 40) - 1 for word in words if level > 1 and word & 1 and not word & 0x80}
    return found


def lines_of_chain(segments, in_turn):
    """The calls that record these segments; in two memories, each is dumped and written while the next has begun."""
    levels, replicas, threads, tables = segments[0].trace[1:5]
    rooms = max(len(each.trace.events) for each in segments), max(len(each.trace.log) for each in segments), 30
    begin = " ".join(map(str, [levels, replicas, threads, tables, *rooms]))
    lines, there = [f"chain {begin}", f"spare {begin}"], {}

    def memory(tables):
        for place in [*there]:
            if there[place] != tables.frames.get(place[0], [0] * 512)[place[1]]:
                lines.append(f"word {place[0]} {place[1]} 0")
                del there[place]
        for number, words in tables.frames.items():
            for index, word in enumerate(words):
                if word or index == 0:
                    lines.append(f"word {number} {index} {word}")
                    there[number, index] = word

    for k, segment in enumerate(segments):
        trace = segment.trace
        if segment.start:
            memory(segment.start)
            lines.append(f"start {segment.start.root}")
        for each in trace.events:
            lines.append("call " + " ".join(map(str, each)) if isinstance(each, model.Call)
                         else " ".join(map(str, ["reply", each.call, each.at, *each.answer])))
        lines += [f"place {place} {call}" for place, call in enumerate(trace.log)]
        is_last = k + 1 == len(segments)
        if in_turn and not is_last:
            lines += ["next", "swap"]
        for replica, dump in enumerate(trace.dumps):
            if dump:
                memory(dump)
                lines.append(f"dump {replica} {dump.applied} {dump.root}")
        lines.append("finish 1000000000")
        if not is_last:
            lines.append("swap" if in_turn else "restart")
    return lines


def random_chain_lines(draw):
    """Calls on recorders of a chain, most of which make sense."""
    levels, replicas, threads = draw.choice([4, 4, 5]), draw.randint(1, 4), draw.choice([1, 3, 65535])
    layout = f"{levels} {replicas} {threads} {draw.randint(1, 65535)}"
    rooms = [f"{draw.choice([0, 9, 40, 200])} {draw.choice([0, 5, 64])} {draw.choice([2, 16, 64, 64])}" for _ in range(2)]
    lines = [f"chain {layout} {rooms[0]}", f"spare {layout} {rooms[1]}"]
    lines += [f"word {frame} 511 0" for frame in range(1, 9)]
    next_place = 0
    for _ in range(draw.randint(20, 200)):
        address = draw.choice([0x400000, 0x600000, 0x40000000, 0x400123, 0xffff800000000000])
        what = draw.choice(["call"] * 8 + ["reply"] * 9 + ["place"] * 3 + ["word", "word", "dump", "dump_frame", "finish", "cut", "cut"])
        if what == "call":
            lines.append(f"call {draw.randrange(replicas)} {draw.choice([0, threads - 1])} {draw.choice([0, 1, 2, 3, 4, 5, 5, 6])} "
                         f"{draw.randint(0, 2)} {draw.randint(0, 1)} {address} {draw.choice([0x1000, 0x200000, 0x40000000])}")
        elif what == "reply":
            lines.append(f"reply {draw.randint(0, 12)} {draw.randint(0, 3)} {draw.randint(0, 9)} {draw.randint(0, 2)} {draw.randint(0, 7)} "
                         f"{draw.getrandbits(64)}")
        elif what == "place":
            lines.append(f"place {draw.choice([next_place] * 9 + [0])} {draw.randint(0, 4)}")
            next_place += 1
        elif what == "word":
            rest = draw.choice([7, 7, 7, 0x87, 0x8000000000000001, 0])
            lines.append(f"word {draw.randint(1, 8)} {draw.choice([0, 1, 256, 511])} {draw.randint(1, 8) * 4096 + rest}")
        elif what == "dump":
            lines.append(f"dump {draw.randrange(replicas)} {draw.randint(0, 9)} {draw.randint(1, 9)}")
        elif what == "dump_frame":
            lines.append(f"dump_frame {draw.randrange(replicas)} {draw.randint(1, 9)}")
        elif what == "finish":
            lines.append("finish 100000000")
        else:
            lines += [f"reply {k} 0 4 0 0 0" for k in range(draw.choice([0, 0, 16]))]
            if draw.random() < 0.8:
                lines.append("finish 100000000")
            lines.append(draw.choice(["next", "next", "restart", "swap"]))
            lines += [f"start {draw.randint(1, 9)}"] * draw.choice([0, 1, 2])
            next_place = 0
    return lines + ["finish 100000000"]


# bugs that are there in chains alone; and what else is said in a chain of those that leave something behind, where a dump or a touch
# meets it first
OF_CHAINS = ("cached-over-cut", "early-start", "late-flush", "freed-early")
ALSO = {"lost-update": ["no 17 Differs", "no 24 Stale"], "unmap-neighbour": ["no 17 Differs", "no 24 Stale", "no 16 StrayFrame"],
        "swapped-updates": ["no 17 Differs", "no 24 Stale"], "reply-before-place": ["no 9 Early", "no 10 WrongAnswer", "no 24 Stale"]}

REFUSALS = with_answers(REFUSALS)
CHAIN_REFUSALS = with_answers(CHAIN_REFUSALS)
