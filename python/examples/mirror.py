"""A mirror on the floor: its pixels are marked in the stencil, and what it shows is drawn there alone."""

from yuzuratchet import Scene, run
from yuzuratchet.camera import look_at, perspective, project
from yuzuratchet.recipes import default_states, draw_where_stencil, mark_stencil
from yuzuratchet.shapes import box, draw_triangles, grid, sphere

scene = Scene(240, 160)
context = scene.immediate
camera = perspective(40, 240 / 160) @ look_at((2, 2.5, -6), (0, 0.4, 0))
bodies = box((-1, 0.9, 0.5), 0.7, "#ffb45a").turned(15) + sphere((0.9, 0.9, -0.3), 0.8, "#98c1d9")
shown = bodies.mirrored("y").shaded((0.5, 1, 0.6), ambient=0.2, direct=0.3)
glass = project(grid(1, 1, 4.5, "#303c58"), camera, scene)
context.clear_color("#181828")
mark_stencil(context, 1)
draw_triangles(context, glass)
draw_where_stencil(context, 1)
draw_triangles(context, glass)
draw_where_stencil(context, 1, depth=True)
draw_triangles(context, project(shown, camera, scene))
default_states(context)
draw_triangles(context, project(bodies.shaded((0.5, -1, 0.6)), camera, scene))
scene.save("mirror.txt")
run(scene).save("mirror.png")
