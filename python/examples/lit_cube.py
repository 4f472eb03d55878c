"""A lit cube and its shadow on a floor: the shadow's volume is counted in the stencil."""

import numpy as np

from yuzuratchet import Scene, run
from yuzuratchet.meshes import mesh
from yuzuratchet.recipes import light_outside_shadows, mark_shadow_volumes
from yuzuratchet.shapes import box, draw_triangles

LIGHT = (0.9, -1.0, 0.2)
CUBE = box((-0.6, 0.9, 0), 0.9, "#ffb45a")
FLOOR = box((0, -0.1, 0), (3.6, 0.1, 3.6), "#96aa96")


def seen(points):
    """Points of the room on the target: turned, tilted, x and y in pixels, depth 0.0 to 1.0."""
    x, y, z = points.T
    x, z = x * np.cos(0.6) - z * np.sin(0.6), x * np.sin(0.6) + z * np.cos(0.6)
    y, z = y * np.cos(0.5) + z * np.sin(0.5), z * np.cos(0.5) - y * np.sin(0.5)
    return np.column_stack([96 + 19 * x, 76 - 19 * y, (z + 16) / 32])


def draw(body):
    draw_triangles(context, mesh(seen(body.points), body.faces, body.colours))


scene = Scene(192, 144)
context = scene.immediate
context.clear_color("#181828")
for body in (CUBE, FLOOR):
    draw(body.shaded(LIGHT, direct=0))
mark_shadow_volumes(context)
draw(CUBE.shadow_volume(LIGHT, reach=6).coloured("#000000"))
light_outside_shadows(context)
for body in (CUBE, FLOOR):
    draw(body.shaded(LIGHT))
scene.save("lit_cube.txt")
run(scene).save("lit_cube.png")
