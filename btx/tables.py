"""Tables that scripts of the viewer have as JSON, for the page editor and btx alike."""
import json
import os
import re
from typing import Any

from btx import program


def table_of(script: str, name: str) -> Any:
    """The value of a constant in a script of the viewer, which is JSON."""
    with open(os.path.join(program.ROOT, "view", script), encoding="utf-8") as file:
        found = re.search(rf"const {name} = (\{{.*?\n\}});", file.read(), re.DOTALL)
    if found is None:
        raise ValueError(f"{script} has no {name}")
    return json.loads(found[1])
