"""All tests of the tool: tests/tool/run starts them. A word on the command line runs one part: transcripts, trips, hardship or pages."""
import sys

import hardship
import pages
import transcripts
import trips
from bench import Count

PARTS = {"transcripts": transcripts, "trips": trips, "hardship": hardship, "pages": pages}


def main(wanted):
    count = Count()
    for name, module in PARTS.items():
        if not wanted or name in wanted:
            count.part(name, module.TESTS)
    print(f"tool: {count.passed} passed")
    return 1 if count.failed or not count.passed else 0


sys.exit(main(sys.argv[1:]))
