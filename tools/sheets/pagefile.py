"""The page's file: an old one goes before anything is read, and a new one comes whole or not at all."""

import os
from pathlib import Path

from files import Unusable, write_whole

# Whatever has another name may be a person's table, and the file is removed.
ENDINGS = {".html", ".htm"}


class PageFile:
    """The place of a table's page. A page of an earlier run is removed at once, so that it is never taken for this run's."""

    def __init__(self, path, table):
        self.path = Path(path)
        if self.path.suffix.lower() not in ENDINGS:
            raise Unusable(f"{path}: the name of a page ends in .html: write --page table.html")
        try:
            if os.path.exists(table) and self.path.exists() and self.path.samefile(table):
                raise Unusable(f"{path}: this is the table itself: give the page another name")
            # In a fresh clone the page's folder comes only with the processor, so one that is missing is told at the end.
            if self.path.parent.exists():
                # Where no page can be written, that is told before the table is run.
                write_whole(self.path, "")
                self.path.unlink()
        except OSError as error:
            raise self.not_written(error)

    def not_written(self, error):
        return Unusable(f"{self.path}: the page can not be written there ({error.strerror}): name another place")

    def write(self, text):
        try:
            write_whole(self.path, text)
        except OSError as error:
            raise self.not_written(error)
