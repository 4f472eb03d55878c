"""Two lists: one counts what is seen of a square, by which the other draws it or leaves it out."""

from yuzuratchet import Scene, run
from yuzuratchet.recipes import count_seen
from yuzuratchet.shapes import draw_triangles, rectangle

scene = Scene(96, 64)
probe, drawing = scene.deferred[:2]
count_seen(probe)
with probe.counted(0):
    draw_triangles(probe, rectangle(20, 16, 52, 48, depth=0.5))
drawing.set_predication((0, False))
draw_triangles(drawing, rectangle(20, 16, 52, 48, depth=0.5, colour="#ffb45a"))
lists = [probe.finish_command_list(), drawing.finish_command_list()]
scene.immediate.clear_color("#181828")
draw_triangles(scene.immediate, rectangle(8, 8, 40, 56, depth=0.2, colour="#96aa96"))
for command_list in lists:
    scene.immediate.execute(command_list)
seen = scene.immediate.get_data(0)
scene.save("two_lists.txt")
result = run(scene)
result.save("two_lists.png")
print(result.answers[seen].count, "pixels are seen")
