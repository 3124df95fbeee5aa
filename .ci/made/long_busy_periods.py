"""`rta` of tasks whose response times take long to find if one adds what is asked for again and again (bench/documents.py).

Below tasks that fill the processor no task has a response time. The periods 2, 3, 7, 43 and 1807 leave one tick of
3,263,442 to the tasks below them: so each of these waits that long for a tick, and the last of 27 waits 27 times as long.
"""

import sys
from pathlib import Path

sys.path.insert(0, str(Path(__file__).resolve().parents[2] / "bench"))

from documents import FULL_ABOVE, NEARLY_FULL_ABOVE, SEVERAL_SCALES, rates  # noqa: E402

PERIODS_LEAVE = 2 * 3 * 7 * 43 * 1807
RESPONSES = {
    "below a full processor": (FULL_ABOVE, [1, 2] + ["beyond"] * 30),
    "below one nearly full": (NEARLY_FULL_ABOVE, [1, 2, 6, 42, 1806] + [PERIODS_LEAVE * (place + 1) for place in range(27)]),
    "of several scales": (SEVERAL_SCALES, [64210] + ["beyond"] * 8),
}


def cases():
    for name, (tasks, responses) in RESPONSES.items():
        lines = (f"t{place},{it},{period}\n" for place, (it, (period, _)) in enumerate(zip(responses, tasks)))
        yield f"rta {name}", ["rta"], rates(tasks), 0, "".join(lines).encode()
