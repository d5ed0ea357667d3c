"""The catalogue's points, lengths of time and the lint's files, as `bossctl` reads them: the one place that reaches into the client's own
modules."""

from bossd._addresses import addresses_of
from bossd._protocol import is_name
from bossd.ctl._key import taken as taken_key
from bossd.ctl._lint import File, Finding, is_pattern, name_of, shown
from bossd.ctl._served import DEFAULT, Ask, NoAnswer, asking, is_none_here, process_in, told
from bossd.ctl._show import Catalogue, Cell, Point, exact_length, now, read_catalogue, read_length, table
from bossd.ctl._toml import Failure, Path

__all__ = ["DEFAULT", "Ask", "Catalogue", "Cell", "Failure", "File", "Finding", "NoAnswer", "Path", "Point", "addresses_of", "asking",
           "exact_length", "is_name", "is_none_here", "is_pattern", "name_of", "now", "process_in", "read_catalogue", "read_length", "shown",
           "table", "taken_key", "told"]
