"""Shows in a browser who holds which point of a building's `bossd`, and counts it for Prometheus.

`docs/CONSOLE.md` describes it. The modules, from the server to the page: `looking` asks the server each second, and keeps what it was
answered in a `picture`; `knowing` finds out which catalogue it has; `answering` says whether it answers; `coming` works out what comes next
at a point, `history` what it had in the last day, and `schedules` what schedules want of it; `operating` makes an operator's changes;
`metrics` counts; `guard` says who may ask; `web` answers browsers. What the server writes down is followed by the reader of `bossd.ctl`."""

__version__ = "0.1.0"
