"""All cases of this folder, for tests/serve.sh."""

import sys

import accepts  # noqa: F401  (each adds its cases)
import boxes  # noqa: F401
import calls_in_order  # noqa: F401
import changed  # noqa: F401
import checked_words  # noqa: F401
import closed  # noqa: F401
import conversations  # noqa: F401
import copies  # noqa: F401
import crash_states  # noqa: F401
import deliveries  # noqa: F401
import ends  # noqa: F401
import failing  # noqa: F401
import few_descriptors  # noqa: F401
import files  # noqa: F401
import floods  # noqa: F401
import held_up  # noqa: F401
import large_lists  # noqa: F401
import largest  # noqa: F401
import leases  # noqa: F401
import limits  # noqa: F401
import lock_texts  # noqa: F401
import logged_addresses  # noqa: F401
import logs  # noqa: F401
import neighbour_files  # noqa: F401
import no_descriptors  # noqa: F401
import no_threads  # noqa: F401
import notified  # noqa: F401
import over_quota  # noqa: F401
import pipelining  # noqa: F401
import pipes  # noqa: F401
import putting_off  # noqa: F401
import races  # noqa: F401
import readers  # noqa: F401
import reasons  # noqa: F401
import refusals  # noqa: F401
import sockets  # noqa: F401
import stopping  # noqa: F401
import suffixes  # noqa: F401
import torn_tails  # noqa: F401
import torn_writes  # noqa: F401
import unopened  # noqa: F401
import unserved  # noqa: F401
import written  # noqa: F401
from cases import run_all

sys.exit(run_all(sys.argv[1:]))
