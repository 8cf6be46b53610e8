from camac.pictures.bounds import draw_bounds
from camac.pictures.costs import draw_calls, draw_costs
from camac.pictures.plan import draw_plan
from camac.pictures.rates import draw_rates
from camac.pictures.response import draw_response
from camac.pictures.maps import draw_pairs, draw_places
from camac.pictures.spectra import channel_groups, command_groups, draw_groups, event_groups
from camac.pictures.strips import draw_strip
from camac.pictures.svg import Canvas
from camac.pictures.timeline import draw_run

__all__ = [
    "Canvas", "channel_groups", "command_groups", "draw_bounds", "draw_calls", "draw_costs", "draw_groups", "draw_pairs", "draw_places", "draw_plan",
    "draw_rates", "draw_response", "draw_run", "draw_strip", "event_groups",
]
