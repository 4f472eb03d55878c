"""Where three squares overlap, counted in the stencil; each count has its colour."""

from yuzuratchet import Scene, run
from yuzuratchet.recipes import count_overlaps, draw_where_stencil
from yuzuratchet.shapes import draw_triangles, rectangle

scene = Scene(96, 96)
count_overlaps(scene.immediate)
for at in (8, 24, 40):
    draw_triangles(scene.immediate, rectangle(at, at, at + 48, at + 48))
for count, colour in enumerate(["#181828", "#3d5a80", "#98c1d9", "#ee6c4d"]):
    draw_where_stencil(scene.immediate, count)
    draw_triangles(scene.immediate, rectangle(0, 0, 96, 96, colour=colour))
scene.save("overlaps.txt")
run(scene).save("overlaps.png")
