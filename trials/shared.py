"""What trials take from bench/: the programs, the terms of workloads, and the parts of pages."""
import os
import sys

HERE = os.path.dirname(os.path.abspath(__file__))
sys.path.append(os.path.join(HERE, '..', 'bench'))

import pages  # noqa: E402
import program  # noqa: E402
import turns  # noqa: E402
import workloads  # noqa: E402
