"""A lit cube that turns, frame by frame on one device, as library/cube.c draws it.

``turning_cube.py OUT.png [FRAMES]`` prints how many pixels of the cube each frame shows, and saves
the last one.
"""

import sys

import numpy as np

from yuzuratchet import PrimitiveTopology
from yuzuratchet.calls import Device

SIDE, TILT = 256, 0.6
LIGHT = np.array([0.3, 0.55, 0.78])
COLOUR = np.array([235, 150, 70])


def turned(x, y, z, turn):
    """A point, turned about the upright axis and tilted towards the eye."""
    x, z = np.cos(turn) * x + np.sin(turn) * z, np.cos(turn) * z - np.sin(turn) * x
    return x, np.cos(TILT) * y - np.sin(TILT) * z, np.sin(TILT) * y + np.cos(TILT) * z


def corner(axis, sign, u, v, turn):
    """A corner of a face on the target, in the light: the cube stands four units from the eye."""
    normal = turned(*np.roll([sign, 0, 0], axis), turn)
    x, y, z = turned(*np.roll([sign, -u * sign, v], axis), turn)
    away, light = 4 - z, 0.2 + 0.8 * max(LIGHT @ normal, 0)
    scale = 0.95 * SIDE / away
    colour = tuple(int(it) for it in np.rint(COLOUR * light))
    return SIDE / 2 + scale * x, SIDE / 2 - scale * y, (away - 2) / 4, colour


def draw_frame(device, turn):
    """Draws the cube by a list, and gives how many of its pixels are seen."""
    recorder, immediate = device.deferred[0], device.immediate
    around = [(-1, -1), (1, -1), (1, 1), (-1, 1)]
    faces = [(axis, sign) for axis in range(3) for sign in (1, -1)]
    recorder.ia_set_vertices([corner(*face, u, v, turn) for face in faces for u, v in around])
    recorder.ia_set_indices(4 * face + at for face in range(6) for at in (0, 1, 2, 0, 2, 3))
    recorder.ia_set_topology(PrimitiveTopology.TRIANGLELIST)
    with recorder.counted(0):
        recorder.draw_indexed(36)
    immediate.clear_color((24, 28, 40))
    immediate.clear_depth_stencil()
    immediate.execute(recorder.finish_command_list(), restore=True)
    return immediate.get_data(0)


with Device(SIDE, SIDE) as device:
    for frame in range(int(sys.argv[2]) if len(sys.argv) > 2 else 1):
        print(draw_frame(device, 0.7 + 0.1 * frame), "pixels")
    device.save(sys.argv[1])
