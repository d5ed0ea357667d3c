"""Holds points by weekly programmes, as one control process of a building's `bossd`.

`docs/SCHEDULE.md` describes it. The modules, from the file to the server: `reading` reads the file and says every mistake; `days` and
`week` say what is wanted at a moment, `ical` which events a calendar has, `sources` keeps their files; `keeping` goes from what is wanted
and what is held to requests; `running` asks the server; `told` is what others are told of it; `showing` draws it."""

__version__ = "0.1.0"
