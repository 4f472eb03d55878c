"""Eight threads record, a context each. Their lists are executed in order; a refused call is no end.

``recorders.py`` prints how many pixels of each square are seen, as library/recorders.c does.
"""

import threading

from yuzuratchet import CallRefused
from yuzuratchet.calls import Device
from yuzuratchet.shapes import draw_triangles, rectangle

lists = {}


def record(number):
    """Records a square, which lies behind the one before it, and a query that counts it."""
    context, at = device.deferred[number], 16 * number
    look = {"depth": 1000 * number, "colour": (31 * number, 128, 90)}
    with context.counted(number):
        draw_triangles(context, rectangle(at, at, at + 64, at + 64, **look))
    lists[number] = context.finish_command_list()


with Device(176, 176) as device:
    threads = [threading.Thread(target=record, args=(number,)) for number in range(8)]
    for thread in threads:
        thread.start()
    try:
        device.immediate.draw(3)
    except CallRefused as refused:
        print("refused with", refused.number)
    for number, thread in enumerate(threads):
        thread.join()
        device.immediate.execute(lists[number], restore=True)
        print(device.immediate.get_data(number), "pixels")
