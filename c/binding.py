"""A binding that names no types of answers, as Python's ctypes lets one: an answer is taken for an int, so all its 32 bits must be the number.

usage: binding.py LIBRARY      (the proved libraries in one shared object). Last line: `N answers taken for an int`.
"""
import ctypes
import sys

library = ctypes.CDLL(sys.argv[1])
STORE, IMAGE = 64, 48660 + 64
SIZE, WORD = ctypes.c_size_t, ctypes.c_uint64
queue, events, out = (WORD * 20768)(), (WORD * 6915)(), (WORD * 16)()
store, buffer, image = (ctypes.c_uint8 * STORE)(), (ctypes.c_uint8 * STORE)(), (ctypes.c_uint8 * IMAGE)()
receiver, received = (WORD * 83472)(), (WORD * 5)()


def create(limit=1200, length=STORE):
    return library.dsq_create(queue, store, SIZE(length), WORD(limit), 256, WORD(0), WORD(0), 1, 0)


def add(length, time=0, stream=1):
    return library.dsq_add(queue, store, SIZE(STORE), buffer, SIZE(length), WORD(time), stream, 53, 0, 0, WORD(0), 0, 0, WORD(0))


def produce(size, time=0, room=STORE):
    return library.dsq_produce(queue, store, SIZE(STORE), events, SIZE(6915), buffer, SIZE(room), out, WORD(time), WORD(size))


def answers():
    yield 1, create(limit=0)
    yield 2, create(length=0)
    yield 0, create()
    yield 1, library.dsq_is_empty(queue)
    yield 5, add(0)
    yield 4, add(1, time=2**63)
    yield 8, add(STORE + 1)
    yield 0, add(40)
    yield 8, add(40)
    yield 0, library.dsq_is_empty(queue)
    yield 9, produce(0)
    yield 10, produce(40, room=39)
    yield 0, produce(20)
    yield 3, library.dsq_discard(queue, events, SIZE(0), out, 1, 0)
    yield 11, library.dsq_save(queue, store, SIZE(STORE), image, SIZE(0), out, WORD(0))
    yield 0, library.dsq_save(queue, store, SIZE(STORE), image, SIZE(IMAGE), out, WORD(0))
    yield 12, library.dsq_restore(queue, store, SIZE(STORE), image, SIZE(out[0]), WORD(0))
    yield 0, create()
    yield 13, library.dsq_restore(queue, store, SIZE(STORE), image, SIZE(5), WORD(0))
    yield 0, library.dsq_restore(queue, store, SIZE(STORE), image, SIZE(out[0]), WORD(0))
    yield 20, library.dsq_fill_packet(queue, store, SIZE(STORE), events, SIZE(6915), buffer, SIZE(STORE), out, WORD(0), WORD(35), 0, 0, 0, 0)
    yield 19, library.dsq_read_chunk(buffer, SIZE(3), out, (WORD * 3)())
    yield 27, library.dsq_handle_reset_response(queue, (ctypes.c_uint32 * 3)(), buffer, SIZE(3), out)
    yield 28, library.dsq_plan_priorities((ctypes.c_uint16 * 1)(), SIZE(0), (WORD * 1)(), SIZE(0), (ctypes.c_uint16 * 32)(), WORD(1200))
    yield 2, library.dsr_create(receiver, store, SIZE(0), 0, 0)
    yield 0, library.dsr_create(receiver, store, SIZE(STORE), 0, 0)
    yield 19, library.dsr_receive(receiver, store, SIZE(STORE), buffer, SIZE(3), received)
    yield 0, library.dsr_fetch(receiver, store, SIZE(STORE), buffer, SIZE(STORE), received)


told = 0
for wanted, answer in answers():
    told += 1
    if wanted != answer:
        sys.exit("answer %d is %d and not %d" % (told, answer, wanted))
print("%d answers taken for an int" % told)
