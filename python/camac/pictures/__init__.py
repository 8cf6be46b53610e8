"""Pictures of a plan, of a script's bounds and of a run, as SVG; docs/DATA.md shows them and says how they are read.

Each `draw_..` returns a `Canvas`: `picture()` is a file of its own, `figure()` a part of a page. The same values give the same bytes."""
from camac import lazily

_HOMES, __getattr__, __dir__ = lazily(__name__, __file__)
__all__ = sorted(_HOMES)
