"""hogzelt draw: the places of a sheet as a picture, in the terminal or as SVG."""

from __future__ import annotations

from .files import write_whole
from .options import Options
from .picture import picture_of
from .source import read_given, read_parsed, read_sheet, run
from .svg import svg_text
from .terminal import picture_lines, wants_colour


def draw(options: Options) -> int:
    rules = options.rules()
    given = read_given(options, "draw")
    if given.sort == "sheet":
        picture = picture_of(read_sheet(given, options))
    else:
        parsed = read_parsed(given, options)
        picture = picture_of(run(given, parsed, rules, options.passes(())), parsed.names)
    output = options.get("svg")
    if output is None:
        print("\n".join(picture_lines(picture, wants_colour())))
    else:
        write_whole(output, svg_text(picture).encode(), options.get("file"))
        print(f"{output}: width {picture.width}, par {picture.par}")
    return 0
