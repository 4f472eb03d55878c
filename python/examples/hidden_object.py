"""A conformance case: what lies behind a wall counts no pixel, and a predicate leaves it out.

Beside the wall the same object counts each of its pixels, and is drawn.
"""

from yuzuratchet import Scene, run
from yuzuratchet.recipes import skip_where_hidden
from yuzuratchet.shapes import draw_triangles, rectangle

WALL = rectangle(8, 8, 40, 40, depth=0.25, colour="#96aa96")
OBJECTS = {
    "behind the wall": rectangle(12, 12, 28, 28, depth=0.5, colour="#ff6040"),
    "half beside it": rectangle(32, 20, 56, 36, depth=0.5, colour="#ffb45a"),
}

scene = Scene(64, 48)
context = scene.immediate
context.clear_color("#181828")
draw_triangles(context, WALL)
counts = {}
for query, (name, vertices) in enumerate(OBJECTS.items()):
    skip_where_hidden(context, query, vertices)
    draw_triangles(context, vertices)
    context.set_predication(None)
    counts[name] = context.get_data(query)
behind, beside = context.pixel(20, 20), context.pixel(50, 30)
scene.save("hidden_object.txt")

result = run(scene)
result.save("hidden_object.png")
answers = result.answers
assert answers[counts["behind the wall"]].count == 0
assert answers[counts["half beside it"]].count == 16 * 16  # columns 40 to 55
assert answers[behind].colour == (0x96, 0xAA, 0x96, 255)
assert answers[beside].colour == (0xFF, 0xB4, 0x5A, 255)
