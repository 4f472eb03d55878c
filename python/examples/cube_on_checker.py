"""A lit cube on a checker floor, in perspective."""

from yuzuratchet import Scene, run
from yuzuratchet.camera import look_at, perspective, project
from yuzuratchet.shapes import box, checker, draw_triangles

scene = Scene(240, 160)
camera = perspective(40, 240 / 160) @ look_at((3, 3, -6), (0, 0.5, 0))
floor = checker(10, 10)
cube = box((0, 1, 0), 1, "#ffb45a").turned(20).shaded((0.8, -1, 0.4))
scene.immediate.clear_color("#181828")
for name, body in (("floor", floor), ("cube", cube)):
    scene.label(name)
    draw_triangles(scene.immediate, project(body, camera, scene))
scene.save("cube_on_checker.txt")
run(scene).save("cube_on_checker.png")
